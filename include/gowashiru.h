/*
 * gowashiru.h: a proved scale planner for RNS-CKKS circuits.
 *
 * Eleven calls on bytes. No heap, no global state, reentrant: calls from several threads do not meet. Every input gets one
 * reply and every call ends; what is promised of the replies stands in docs/PROMISES.md and is proved.
 *
 * A circuit, a schedule or a listing in the rising-level dialect is text: one record a line, fields parted by one tab, every line closed
 * by a line feed.
 *
 * Its first line is the header: the word `circuit`, `schedule` or `rising`, then the rescale factor F, the waterline W and the top level L,
 * and as a fourth number the headroom H where one is wanted, each from 1 to 60. Every scale is at least W, and scale + H is at most
 * F*level bits; where no H is given, the scale alone is. Where H is given, a circuit line other than a bare constant whose numbers are
 * all below 2^(H - 1) in absolute value holds, in every schedule that passes, only numbers below half of 2^(F*level). Plan, erase and
 * both conversions write the header's numbers as they are, three or four; the least level is the least with the header's H.
 */
#ifndef GOWASHIRU_H
#define GOWASHIRU_H

#include <stddef.h>
#include <stdint.h>

#ifdef __cplusplus
extern "C" {
#endif

/* The version of this header and of the command; the pkg-config file has it too. */
#define GOWASHIRU_VERSION "0.6.0"

/* A buffer of so many bytes is enough for every plan, which is proved, for every erasure, which is a circuit and has at most 4,372,
 * and for every conversion: a schedule has at most 30,485 and a listing at most 30,483. How many bytes a circuit's own plan has,
 * gowashiru_quote says. It is enough for gowashiru_live too, which writes GOWASHIRU_LIVE_VALUE_BYTES for each value and so never more
 * than GOWASHIRU_LIVE_BYTES. */
#define GOWASHIRU_ENOUGH_BYTES 131072

/* What gowashiru_live writes for each value, and for the 1,792 values that a schedule can have. */
#define GOWASHIRU_LIVE_VALUE_BYTES 4
#define GOWASHIRU_LIVE_BYTES 7168

/* The largest number of a constant; the least is 0. A host that keeps its constants under numbers of its own, say a catalogue's,
 * holds one in a uint32_t. A larger one is refused with 11, and one of more than 11 digits with 1. */
#define GOWASHIRU_MOST_CONSTANT 4294967295u

/* The stack to give a thread. At most 39,704 bytes were measured on x86-64 (from rising; check 39,672, quote 34,664,
 * erase 32,776, plan 31,128, live 25,448, live after 25,432, live peak 25,416, to rising 21,864, may drop 18,296, least level 15,752) by
 * tests/host/stack.c, on full files with the longest numbers in them. */
#define GOWASHIRU_STACK_BYTES 131072

/* What the number of a reply says. The numbers do not change. */
enum gowashiru_number {
    GOWASHIRU_DONE = 0,
    /* Author of any file. */
    GOWASHIRU_NOT_OF_THE_FORM = 1,       /* text not of the form */
    GOWASHIRU_HEADER_OUT_OF_RANGE = 2,   /* header number outside its range: F, W, L and, where it is given, H are from 1 to 60; an
                                          * H of 0 is outside, and no H is written as three numbers */
    GOWASHIRU_TOO_MANY_LINES = 3,        /* more lines than allowed: 256 in a circuit, 1,792 in a schedule or a listing; in erase
                                          * and both conversions also the 257th line whose first field is a circuit word; after
                                          * the rules, the listing's line with which its schedule has more than 1,792 */
    GOWASHIRU_NO_USABLE_LINE = 4,        /* operand names no usable earlier line; of gowashiru_may_drop and gowashiru_live_after also
                                          * a value or line number that the schedule lacks, the caller's: place 0, file 0, after all
                                          * refusals of the file */
    GOWASHIRU_WRONG_KIND = 5,            /* operand of the wrong kind */
    GOWASHIRU_NUMBER_OUT_OF_RANGE = 11,  /* other number outside its range */
    /* Author of a circuit. */
    GOWASHIRU_TOO_FEW_LEVELS = 6,        /* no schedule of any length keeps the rules at this header and erases to this circuit
                                          * (least level: at L = 60); at the first line whose best reserve is below zero, or
                                          * below H where H is given */
    /* Maker of a schedule or a listing (check, both conversions). */
    GOWASHIRU_LEVELS_DIFFER = 7,         /* levels differ in add or mul */
    GOWASHIRU_SCALES_DIFFER = 8,         /* scales differ in add */
    GOWASHIRU_BELOW_WATERLINE = 10,      /* scale below the waterline */
    GOWASHIRU_TOO_HIGH_FOR_DS = 14,      /* ds on a scale not below W + F (from rising); told before 9 */
    GOWASHIRU_ABOVE_MODULUS = 9,         /* scale above the modulus, where H is given scale + H; of a ds W + F, or W + F + H */
    GOWASHIRU_ANOTHER_CIRCUIT = 12,      /* erases to another circuit (check); the place is the first circuit line that differs, or
                                          * one past the shorter file; file 1. Place 1: F, W, L or H differ, also where only one
                                          * of the two has an H */
    /* Caller. */
    GOWASHIRU_BUFFER_TOO_SHORT = 13      /* buffer too short, after all else; place 0, file 0 */
};

/*
 * number is one of the above. On success (0) file and place are 0, and length is the number of bytes written (plan, erase,
 * both conversions, live), the least level (least level), 1 for yes and 0 for no (may drop), a count of ciphertexts (live after, live
 * peak) or 0 (check).
 *
 * Otherwise the call is refused: length is 0 and no lent byte has been changed. place is the text line that caused it,
 * counted from 1, and file the file of that line, counted from 1 in the order of the arguments; both are 0 where no line did.
 * A text line that is missing has the place one past the last.
 */
struct gowashiru_reply {
    uint32_t number, file, place, length;
};

/* Plans a circuit: writes its schedule to out. At each ciphertext line of the circuit, its `out` lines too, no schedule that keeps the rules
 * at the same header and erases to this circuit has more reserve, whatever its length. A circuit that is planned is refused with 6 at no
 * higher top level up to 60. Refuses with 1 to 6, 11, 13. */
struct gowashiru_reply gowashiru_plan(const uint8_t *circuit, size_t circuit_len, uint8_t *out, size_t out_len);

/* Checks a schedule against a circuit. Refuses with 1 to 5, 7 to 12. */
struct gowashiru_reply gowashiru_check(const uint8_t *circuit, size_t circuit_len, const uint8_t *schedule,
                                       size_t schedule_len);

/* Erases a schedule to its circuit, whether or not it keeps the rules: writes the circuit to out. Refuses with 1 to 5, 11, 13. */
struct gowashiru_reply gowashiru_erase(const uint8_t *schedule, size_t schedule_len, uint8_t *out, size_t out_len);

/* The least top level at which a circuit has a schedule, as length; it has one at every level from there to 60. The header's own level is
 * only tested for its range; its H holds at each level that is tried. Refuses with 1 to 6, 11. */
struct gowashiru_reply gowashiru_least_level(const uint8_t *circuit, size_t circuit_len);

/*
 * A quote: number, file and place are as in gowashiru_reply. On success lines, bytes and price are those of the circuit's plan: its
 * lines, the header's among them, the bytes of its text, and its price. On a refusal the three are 0.
 *
 * The price is a sum over the plan's lines. A line costs its number below times the level of its operand before the line, an enc times
 * its own E; an rs or ms by C costs so at each of the levels l, l - 1, ..., l - C + 1. Every price fits a uint32_t, which is proved.
 */
struct gowashiru_quote_reply {
    uint32_t number, file, place, lines, bytes, price;
};

/* Price per level at which an operation starts; in, const and out have none. */
enum gowashiru_price {
    GOWASHIRU_PRICE_MUL = 40,               /* mul of two ciphertexts */
    GOWASHIRU_PRICE_ROT = 32,
    GOWASHIRU_PRICE_RS = 6,
    GOWASHIRU_PRICE_MUL_WITH_CONSTANT = 4,  /* mul of a ciphertext and an encoded constant, in either place */
    GOWASHIRU_PRICE_US = 4,
    GOWASHIRU_PRICE_ENC = 2,
    GOWASHIRU_PRICE_ADD = 1,                /* with a constant too */
    GOWASHIRU_PRICE_NEG = 1,
    GOWASHIRU_PRICE_MS = 1
};

/* Quotes a circuit: lines, bytes and price of what gowashiru_plan would write, which is not written. Each is what counting over the
 * written plan gives. A buffer of `bytes` is the shortest that gowashiru_plan takes for this circuit. Where the circuit cannot be
 * planned, the refusal is gowashiru_plan's own. Refuses with 1 to 6, 11. */
struct gowashiru_quote_reply gowashiru_quote(const uint8_t *circuit, size_t circuit_len);

/* Makes a schedule of a listing in the rising-level dialect, which has levels that count up from 0 and `ds` lines: writes the schedule to
 * out. Refuses with 1 to 5, 7 to 11, 13, 14. */
struct gowashiru_reply gowashiru_from_rising(const uint8_t *listing, size_t listing_len, uint8_t *out, size_t out_len);

/* Makes a listing in the rising-level dialect of a schedule that keeps the rules, without `ds` lines: writes the listing to out. Refuses
 * with 1 to 5, 7 to 11, 13. */
struct gowashiru_reply gowashiru_to_rising(const uint8_t *schedule, size_t schedule_len, uint8_t *out, size_t out_len);

/*
 * When a ciphertext may be dropped. The four calls that follow take one schedule, file 1. It only has to be a schedule that can be read: it
 * may break the rules, and of its at most 1,792 lines more than 256 may have a circuit's words. Lines are numbered as values, from 0: value
 * n stands in text line n + 2. The answers serve a host that does the lines of this very schedule in order; "after a line" is when that line
 * and all before it are done.
 *
 * Each value has one entry: the last line that names it, or its own line where no line names it. After a line the value may be dropped
 * exactly where its entry is at most that line and the line is not before the value's own, which is to say that no later line names it and
 * the line is not before its own. An entry is never before the value's own line, so "entry <= line" decides alone, and a yes stays a yes
 * after every later line. Any value may be asked about, a constant, an encoded one or an `out` line too.
 *
 * A yes speaks of the schedule's own lines. An `out A` line is often the last that names A: a host copies the ciphertext out when it does
 * that line, or gives it away as it is where A may be dropped after it. What was given away is not counted here. The value of an `out` line
 * itself is named by no line. A line with the same operand twice drops it once.
 *
 * The live count after a line is the number of ciphertexts up to it, itself among them, that may not be dropped after it: those still
 * named later. Ciphertexts are the values of in, neg, rot, add, mul, rs, ms and us lines. So a host that takes up each input at its `in`
 * line and drops each ciphertext as soon as it may holds, while it does a line, those counted after the line before it and the line's own
 * result: at most one more than the largest count, what it has handed over apart.
 *
 * Read the reply's number before its length: a refusal has length 0, as a no and a count of none have.
 */

/* May this value be dropped after this line? length is 1 for yes and 0 for no. Refuses with 1 to 5, 11; with 4, file 0 and place 0 where
 * the schedule has no such value or no such line, as a bare header has none. */
struct gowashiru_reply gowashiru_may_drop(const uint8_t *schedule, size_t schedule_len, uint32_t value, uint32_t line);

/* The live count after this line, as length. Refuses with 1 to 5, 11; with 4, file 0 and place 0 where the schedule has no such line. */
struct gowashiru_reply gowashiru_live_after(const uint8_t *schedule, size_t schedule_len, uint32_t line);

/* The largest live count over the lines, as length; 0 for a bare header. Refuses with 1 to 5, 11. */
struct gowashiru_reply gowashiru_live_peak(const uint8_t *schedule, size_t schedule_len);

/* All of it at once, so that a host that drops early reads a schedule once: writes GOWASHIRU_LIVE_VALUE_BYTES for each value in order to
 * out, its entry and then the live count after its own line, two bytes each, the lowest first. Of value v the entry is
 * out[4 * v] + 256 * out[4 * v + 1] and the count out[4 * v + 2] + 256 * out[4 * v + 3]; the largest of the counts is gowashiru_live_peak's.
 * length is four times the number of values, 0 for a bare header. Refuses with 1 to 5, 11, 13; never with 13 where out has
 * GOWASHIRU_LIVE_BYTES. */
struct gowashiru_reply gowashiru_live(const uint8_t *schedule, size_t schedule_len, uint8_t *out, size_t out_len);

/*
 * What is left to the caller: each pointer with its length is memory that may be read during the call, and out memory that
 * may be read and written; no other thread writes to an input, or reads or writes out, during the call; out overlaps no input. With
 * length 0 a pointer is not followed and may be NULL. A thread that calls has GOWASHIRU_STACK_BYTES of stack.
 */

#ifdef __cplusplus
}
#endif

#endif
