/* Quotes document 01's listing, plans it in a buffer of just the quoted bytes, checks the plan, erases it, says when its values may be dropped,
 * asks for the least level and shows two refusals; then takes a listing in the rising-level dialect and gives one. Each reply is tested. */
#include "../include/gowashiru.h"
#include <stdio.h>
#include <string.h>

static const char circuit[] = "circuit\t60\t20\t2\nin\nconst\t7\nmul\t0\t1\nmul\t2\t1\nmul\t3\t3\nout\t4\n";
/* The same at L = 1, which is too few levels. */
static const char shallow[] = "circuit\t60\t20\t1\nin\nconst\t7\nmul\t0\t1\nmul\t2\t1\nmul\t3\t3\nout\t4\n";

/* Twice times a constant: the result would fill the modulus at L = 1. With H = 5, for numbers below 16, that is too few levels. */
static const char detune[] = "circuit\t60\t20\t1\t5\nin\nconst\t7\nmul\t0\t1\nmul\t2\t1\nout\t3\n";

/* A schedule of the first by hand in the rising-level dialect: levels count up from 0, and value 4 is downscaled to the waterline. */
static const char listing[] = "rising\t60\t20\t2\nin\nconst\t7\nenc\t1\t20\t0\nmul\t0\t2\nmul\t3\t2\nds\t4\nmul\t5\t5\nout\t6\n";

static uint8_t plan[GOWASHIRU_ENOUGH_BYTES], erasure[GOWASHIRU_ENOUGH_BYTES];
static uint8_t schedule[GOWASHIRU_ENOUGH_BYTES], given[GOWASHIRU_ENOUGH_BYTES];
static uint8_t live[GOWASHIRU_LIVE_BYTES];

/* Says so where a call was refused; the host then does without what it asked for. */
static int refused(const char *call, struct gowashiru_reply reply) {
    if (reply.number == GOWASHIRU_DONE)
        return 0;
    printf("%s: refused with %u at line %u of file %u\n", call, reply.number, reply.place, reply.file);
    return 1;
}

/* The price is known before anything is planned, and so are the bytes to lend: one less would be refused with 13. */
static int show_quote(const uint8_t *text, size_t length, struct gowashiru_quote_reply *quote) {
    *quote = gowashiru_quote(text, length);
    if (refused("quote", (struct gowashiru_reply){quote->number, quote->file, quote->place, 0}))
        return 1;
    printf("price %u, for a plan of %u lines and %u bytes\n", quote->price, quote->lines, quote->bytes);
    return 0;
}

/* What a host that runs the plan drops after each line, and how many ciphertexts it then holds. */
static int show_drops(const uint8_t *text, size_t length) {
    struct gowashiru_reply peak = gowashiru_live_peak(text, length);
    struct gowashiru_reply table = gowashiru_live(text, length, live, sizeof live);
    if (refused("live peak", peak) || refused("live", table))
        return 1;
    printf("at most %u ciphertexts are live after a line\n", peak.length);
    for (unsigned line = 0; line < table.length / GOWASHIRU_LIVE_VALUE_BYTES; line++) {
        const uint8_t *count = live + line * GOWASHIRU_LIVE_VALUE_BYTES + 2;
        printf("after line %u: %u live, dropped:", line, count[0] + 256u * count[1]);
        for (unsigned value = 0; value <= line; value++) {
            const uint8_t *entry = live + value * GOWASHIRU_LIVE_VALUE_BYTES;
            if (entry[0] + 256u * entry[1] == line)
                printf(" %u", value);
        }
        printf("\n");
    }
    return 0;
}

/* The same asked about one value and one line, and about a line that the plan lacks. */
static int ask_about_lines(const uint8_t *text, size_t length) {
    struct gowashiru_reply early = gowashiru_may_drop(text, length, 5, 7), late = gowashiru_may_drop(text, length, 5, 8);
    struct gowashiru_reply count = gowashiru_live_after(text, length, 7);
    if (refused("may drop", early) || refused("may drop", late) || refused("live after", count))
        return 1;
    printf("value 5 may be dropped after line 7: %s, after line 8: %s\n", early.length ? "yes" : "no", late.length ? "yes" : "no");
    printf("live after line 7: %u\n", count.length);
    return !refused("live after", gowashiru_live_after(text, length, 12));
}

static int plan_and_check(const uint8_t *text, size_t length) {
    struct gowashiru_quote_reply quote;
    if (show_quote(text, length, &quote))
        return 1;
    struct gowashiru_reply planned = gowashiru_plan(text, length, plan, quote.bytes);
    if (refused("plan", planned))
        return 1;
    printf("%.*s", (int)planned.length, (const char *)plan);
    if (refused("check", gowashiru_check(text, length, plan, planned.length)))
        return 1;
    struct gowashiru_reply erased = gowashiru_erase(plan, planned.length, erasure, sizeof erasure);
    if (refused("erase", erased))
        return 1;
    int same = erased.length == length && memcmp(erasure, text, length) == 0;
    printf("the plan passes and erases to %s\n", same ? "the circuit" : "another circuit");
    return !same || show_drops(plan, planned.length) || ask_about_lines(plan, planned.length);
}

static int show_least_level(const uint8_t *text, size_t length) {
    struct gowashiru_reply least = gowashiru_least_level(text, length);
    if (refused("least level", least))
        return 1;
    printf("least level %u\n", least.length);
    return 0;
}

/* A service mends what it can by the number: here it asks from which level on the circuit fits. */
static int show_refusal(const uint8_t *text, size_t length) {
    struct gowashiru_reply reply = gowashiru_plan(text, length, plan, sizeof plan);
    if (!refused("plan", reply) || reply.number != GOWASHIRU_TOO_FEW_LEVELS)
        return 1;
    return show_least_level(text, length);
}

/* A listing becomes a schedule of the same circuit. Given back as a listing it has a `us` and an `rs` line for the `ds` line. */
static int take_and_give_listing(const uint8_t *text, size_t length) {
    struct gowashiru_reply taken = gowashiru_from_rising(text, length, schedule, sizeof schedule);
    if (refused("from rising", taken))
        return 1;
    printf("%.*s", (int)taken.length, (const char *)schedule);
    if (refused("check", gowashiru_check((const uint8_t *)circuit, sizeof circuit - 1, schedule, taken.length)))
        return 1;
    printf("the listing's schedule passes\n");
    struct gowashiru_reply back = gowashiru_to_rising(schedule, taken.length, given, sizeof given);
    if (refused("to rising", back))
        return 1;
    printf("%.*s", (int)back.length, (const char *)given);
    return 0;
}

int main(void) {
    const uint8_t *text = (const uint8_t *)circuit;
    if (plan_and_check(text, sizeof circuit - 1) || show_least_level(text, sizeof circuit - 1))
        return 1;
    if (show_refusal((const uint8_t *)shallow, sizeof shallow - 1) || show_refusal((const uint8_t *)detune, sizeof detune - 1))
        return 1;
    return take_and_give_listing((const uint8_t *)listing, sizeof listing - 1);
}
