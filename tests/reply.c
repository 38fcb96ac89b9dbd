/* Prints what a service replies on files: reply plan FILE, reply least FILE, reply quote FILE, reply erase FILE,
 * reply from-rising FILE, reply to-rising FILE, reply check CIRCUIT SCHEDULE, reply may-drop FILE VALUE LINE, reply live-after FILE LINE,
 * reply live-peak FILE, reply live FILE. */
#include "../include/gowashiru.h"
#include <stdio.h>
#include <stdlib.h>
#include <string.h>

static uint8_t first[1 << 20], second[1 << 20], out[1 << 16];
static struct gowashiru_quote_reply quote;

static size_t load(const char *name, uint8_t *bytes, size_t room) {
    FILE *file = fopen(name, "rb");
    if (!file) {
        perror(name);
        return 0;
    }
    size_t length = fread(bytes, 1, room, file);
    fclose(file);
    return length;
}

/* The quote itself is kept; a refusal is told as every other one. */
static struct gowashiru_reply ask_quote(size_t length) {
    quote = gowashiru_quote(first, length);
    return (struct gowashiru_reply){quote.number, quote.file, quote.place, 0};
}

static uint32_t number_from(const char *word) {
    return (uint32_t)strtoul(word, NULL, 10);
}

static unsigned two_bytes(const uint8_t *bytes) {
    return bytes[0] + 256u * bytes[1];
}

/* A line for each value: its number, its entry and the count after its own line. */
static void print_live(size_t length) {
    for (size_t at = 0; at < length; at += GOWASHIRU_LIVE_VALUE_BYTES)
        printf("%zu\t%u\t%u\n", at / GOWASHIRU_LIVE_VALUE_BYTES, two_bytes(out + at), two_bytes(out + at + 2));
}

static void print_reply(const char *service, struct gowashiru_reply reply) {
    if (reply.number && !strcmp(service, "check"))
        printf("refused\t%u\t%u\t%u\n", reply.number, reply.file, reply.place);
    else if (reply.number)
        printf("refused\t%u\t%u\n", reply.number, reply.place);
    else if (!strcmp(service, "check"))
        printf("passed\n");
    else if (!strcmp(service, "least"))
        printf("level\t%u\n", reply.length);
    else if (!strcmp(service, "quote"))
        printf("lines\t%u\nbytes\t%u\nprice\t%u\n", quote.lines, quote.bytes, quote.price);
    else if (!strcmp(service, "may-drop"))
        puts(reply.length == 1 ? "yes" : reply.length == 0 ? "no" : "neither yes nor no");
    else if (!strcmp(service, "live-after"))
        printf("live\t%u\n", reply.length);
    else if (!strcmp(service, "live-peak"))
        printf("peak\t%u\n", reply.length);
    else if (!strcmp(service, "live"))
        print_live(reply.length);
    else
        fwrite(out, 1, reply.length, stdout);
}

int main(int count, char **words) {
    if (count < 3) {
        fprintf(stderr, "usage: reply plan|least|quote|erase|from-rising|to-rising|live-peak|live FILE, reply check CIRCUIT SCHEDULE,\n"
                        "reply may-drop FILE VALUE LINE, reply live-after FILE LINE\n");
        return 2;
    }
    size_t length = load(words[2], first, sizeof first);
    struct gowashiru_reply reply;
    if (!strcmp(words[1], "plan"))
        reply = gowashiru_plan(first, length, out, sizeof out);
    else if (!strcmp(words[1], "erase"))
        reply = gowashiru_erase(first, length, out, sizeof out);
    else if (!strcmp(words[1], "from-rising"))
        reply = gowashiru_from_rising(first, length, out, sizeof out);
    else if (!strcmp(words[1], "to-rising"))
        reply = gowashiru_to_rising(first, length, out, sizeof out);
    else if (!strcmp(words[1], "least"))
        reply = gowashiru_least_level(first, length);
    else if (!strcmp(words[1], "quote"))
        reply = ask_quote(length);
    else if (!strcmp(words[1], "check") && count == 4)
        reply = gowashiru_check(first, length, second, load(words[3], second, sizeof second));
    else if (!strcmp(words[1], "may-drop") && count == 5)
        reply = gowashiru_may_drop(first, length, number_from(words[3]), number_from(words[4]));
    else if (!strcmp(words[1], "live-after") && count == 4)
        reply = gowashiru_live_after(first, length, number_from(words[3]));
    else if (!strcmp(words[1], "live-peak"))
        reply = gowashiru_live_peak(first, length);
    else if (!strcmp(words[1], "live"))
        reply = gowashiru_live(first, length, out, sizeof out);
    else
        return 2;
    print_reply(words[1], reply);
    return 0;
}
