/*
 * How much stack a call takes: each call runs on a stack that was filled with one byte before, and the lowest byte that has changed
 * tells. Inputs are full files, each also with a last line or a header of the longest numbers, since digits are read by recursion.
 * Fails if a call takes more than half of what the header says to give.
 */
#define _XOPEN_SOURCE 700
#include "gowashiru.h"

#include <stdarg.h>
#include <stdint.h>
#include <stdio.h>
#include <stdlib.h>
#include <string.h>
#include <ucontext.h>

enum { FILL = 0xA5, MOST_INPUTS = 32, SERVICES = 12 };

enum service { NOTHING, PLAN, CHECK, ERASE, LEAST, QUOTE, FROM_RISING, TO_RISING, MAY_DROP, LIVE_AFTER, LIVE_PEAK, LIVE };

static const char *const names[SERVICES] = {"nothing",     "plan",      "check",    "erase",      "least level", "quote",
                                            "from rising", "to rising", "may drop", "live after", "live peak",   "live"};

struct input {
    char *bytes;
    size_t length;
};

static struct input inputs[MOST_INPUTS];
static size_t input_count;
static uint8_t stack[GOWASHIRU_STACK_BYTES];
static uint8_t out[GOWASHIRU_ENOUGH_BYTES];
static ucontext_t outside, inside;
static enum service service;
static struct input first, second;

static void call(void)
{
    const uint8_t *one = (const uint8_t *)first.bytes, *other = (const uint8_t *)second.bytes;
    if (service == PLAN)
        gowashiru_plan(one, first.length, out, sizeof out);
    else if (service == CHECK)
        gowashiru_check(one, first.length, other, second.length);
    else if (service == ERASE)
        gowashiru_erase(one, first.length, out, sizeof out);
    else if (service == LEAST)
        gowashiru_least_level(one, first.length);
    else if (service == QUOTE)
        gowashiru_quote(one, first.length);
    else if (service == FROM_RISING)
        gowashiru_from_rising(one, first.length, out, sizeof out);
    else if (service == TO_RISING)
        gowashiru_to_rising(one, first.length, out, sizeof out);
    else if (service == MAY_DROP)
        gowashiru_may_drop(one, first.length, 0, 1791);
    else if (service == LIVE_AFTER)
        gowashiru_live_after(one, first.length, 1791);
    else if (service == LIVE_PEAK)
        gowashiru_live_peak(one, first.length);
    else if (service == LIVE)
        gowashiru_live(one, first.length, out, sizeof out);
}

/* The bytes of stack that the call took. */
static size_t taken(void)
{
    memset(stack, FILL, sizeof stack);
    getcontext(&inside);
    inside.uc_stack.ss_sp = stack;
    inside.uc_stack.ss_size = sizeof stack;
    inside.uc_link = &outside;
    makecontext(&inside, call, 0);
    swapcontext(&outside, &inside);
    size_t free_bytes = 0;
    while (free_bytes < sizeof stack && stack[free_bytes] == FILL)
        free_bytes++;
    return sizeof stack - free_bytes;
}

static char draft[GOWASHIRU_ENOUGH_BYTES];
static size_t drafted;

static void put(const char *format, ...)
{
    va_list values;
    va_start(values, format);
    int length = vsnprintf(draft + drafted, sizeof draft - drafted, format, values);
    va_end(values);
    drafted += (size_t)length;
}

static void take(void)
{
    struct input *input = &inputs[input_count++];
    input->bytes = malloc(drafted);
    input->length = drafted;
    if (input->bytes == NULL)
        exit(2);
    memcpy(input->bytes, draft, drafted);
    drafted = 0;
}

static void make_circuit(const char *last)
{
    static const char *const lines[] = {"add\t%d\t0\n", "mul\t%d\t%d\n", "rot\t%d\t-32767\n", "neg\t%d\n"};
    put("circuit\t60\t20\t60\nin\n");
    for (int value = 1; value < 255; value++)
        put(lines[value % 4], value - 1, value - 1);
    put("%s", last);
    take();
}

/* Kept lines of a circuit of 255 `neg` lines, with upscales between. */
static void make_schedule(const char *last)
{
    put("schedule\t60\t20\t60\nin\n");
    for (int value = 1; value < 1791; value++)
        put(value % 7 ? "us\t%d\t1\n" : "neg\t%d\n", value - 1);
    put("%s", last);
    take();
}

/* As many live ciphertexts as a schedule can have: each of the last lines names two. */
static void make_sums(void)
{
    put("schedule\t60\t20\t60\n");
    for (int value = 0; value < 1194; value++)
        put("in\n");
    for (int value = 0; value < 1194; value += 2)
        put("add\t%d\t%d\n", value, value + 1);
    put("out\t1790\n");
    take();
}

/* Full files of the longest constant numbers: each used once, alone, and with their encodings, to which the headroom leaves just room. */
static void make_constants(void)
{
    put("circuit\t60\t20\t60\nin\n");
    for (int value = 1; value < 255; value += 2)
        put("const\t4294967295\nmul\t%d\t%d\n", value - 1, value);
    put("out\t254\n");
    take();
    put("circuit\t60\t60\t60\t60\n");
    for (int value = 0; value < 256; value++)
        put("const\t4294967295\n");
    take();
    put("schedule\t60\t60\t60\t60\n");
    for (int value = 0; value < 1792; value++)
        put("const\t4294967295\n");
    take();
    put("schedule\t60\t20\t60\t60\n");
    for (int value = 0; value < 1792; value++)
        put(value % 7 ? "enc\t%d\t3540\t60\n" : "const\t4294967295\n", value / 7 * 7);
    take();
}

/* A full listing, with a downscale among the upscales, and this last line. */
static void make_listing(const char *last)
{
    put("rising\t60\t20\t60\nin\nconst\t4294967295\nenc\t1\t20\t59\nds\t0\n");
    for (int value = 4; value < 1790; value++)
        put(value % 7 ? "us\t%d\t1\n" : "neg\t%d\n", value - 1);
    put("%s", last);
    take();
}

/* Listings that are converted, with as many lines as fit before and after, and listings with the longest numbers. */
static void make_listings(void)
{
    make_listing("us\t1789\t1\n");
    make_listing("ds\t99999999999\n");
    make_listing("enc\t99999999999\t99999999999\t99999999999\n");
    make_listing("rot\t99999999999\t-9999999999\n");
    put("rising\t60\t20\t2\t40\n");
    for (int value = 0; value < 946; value++)
        put(value < 100 ? "in\n" : "ds\t0\n");
    take();
    put("rising\t99999999999\t99999999999\t99999999999\t99999999999\n");
    take();
}

static void make_inputs(void)
{
    make_circuit("out\t254\n");
    make_circuit("rot\t99999999999\t-9999999999\n");
    make_circuit("mul\t99999999999\t99999999999\n");
    make_circuit("const\t4294967295\n");
    make_circuit("const\t99999999999\n");
    put("circuit\t60\t20\t60\nin\n");
    for (int value = 1; value < 256; value++)
        put("neg\t%d\n", value - 1);
    take();
    put("circuit\t99999999999\t99999999999\t99999999999\t99999999999\n");
    take();
    make_schedule("us\t1790\t1\n");
    make_schedule("enc\t99999999999\t99999999999\t99999999999\n");
    make_schedule("rot\t99999999999\t-9999999999\n");
    make_schedule("const\t4294967295\n");
    make_schedule("const\t99999999999\n");
    make_constants();
    make_sums();
    make_listings();
    put("schedule\t99999999999\t99999999999\t99999999999\t99999999999\n");
    take();
    /* The plan of the first circuit, its longest schedule with all kinds of conversions. */
    struct gowashiru_reply reply =
        gowashiru_plan((const uint8_t *)inputs[0].bytes, inputs[0].length, (uint8_t *)draft, sizeof draft);
    drafted = reply.length;
    take();
}

static size_t most_of(enum service asked)
{
    size_t most = 0;
    service = asked;
    for (size_t i = 0; i < input_count; i++)
        for (size_t j = 0; j < (asked == CHECK ? input_count : 1); j++) {
            first = inputs[i];
            second = inputs[j];
            size_t bytes = taken();
            most = bytes > most ? bytes : most;
        }
    return most;
}

int main(void)
{
    make_inputs();
    size_t own = most_of(NOTHING), most = 0;
    printf("stack:");
    for (enum service asked = PLAN; asked <= LIVE; asked++) {
        size_t bytes = most_of(asked) - own;
        printf("%s %s %zu bytes", asked == PLAN ? "" : ",", names[asked], bytes);
        most = bytes > most ? bytes : most;
    }
    printf("\n");
    if (most == 0 || most > GOWASHIRU_STACK_BYTES / 2) {
        fprintf(stderr, "stack: FAILED: %zu bytes, more than half of what the header says\n", most);
        return 1;
    }
    return 0;
}
