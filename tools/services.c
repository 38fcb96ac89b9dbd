#include "services.h"

#include "../include/gowashiru.h"
#include "files.h"
#include "picture.h"
#include "refusals.h"

#include <inttypes.h>
#include <stdio.h>
#include <stdlib.h>
#include <string.h>

static struct file first, second;
static uint8_t out[GOWASHIRU_ENOUGH_BYTES];

static enum status refused(struct gowashiru_reply reply, const struct file *file) {
    struct refusal refusal = {.number = reply.number, .place = reply.place, .file = file, .schedule = &second};
    tell_refusal(&refusal);
    return REFUSED;
}

/* Of a service that is asked about a value or a line; NULL where it is not. */
static enum status refused_asking(struct gowashiru_reply reply, const uint32_t *value, const uint32_t *line) {
    struct refusal refusal = {.number = reply.number, .place = reply.place, .file = &first, .value = value, .line = line};
    tell_refusal(&refusal);
    return REFUSED;
}

static enum status written(const struct arguments *arguments, const void *bytes, size_t length) {
    return write_result(arguments->output, bytes, length) ? DONE : FAILED;
}

static enum status written_number(const struct arguments *arguments, uint32_t number) {
    char text[16];
    int length = snprintf(text, sizeof text, "%" PRIu32 "\n", number);
    return written(arguments, text, (size_t)length);
}

/* A service that makes one text of another. */
typedef struct gowashiru_reply text_service(const uint8_t *bytes, size_t length, uint8_t *result, size_t result_length);

static enum status run_text_service(const struct arguments *arguments, enum file_kind kind, text_service *service) {
    first.kind = kind;
    if (!read_file(&first, arguments->names[0]))
        return FAILED;
    struct gowashiru_reply reply = service(first.bytes, first.length, out, sizeof out);
    return reply.number != GOWASHIRU_DONE ? refused(reply, &first) : written(arguments, out, reply.length);
}

enum status run_plan(const struct arguments *arguments) {
    return run_text_service(arguments, CIRCUIT, gowashiru_plan);
}

enum status run_erase(const struct arguments *arguments) {
    return run_text_service(arguments, SCHEDULE, gowashiru_erase);
}

enum status run_from_rising(const struct arguments *arguments) {
    return run_text_service(arguments, LISTING, gowashiru_from_rising);
}

enum status run_to_rising(const struct arguments *arguments) {
    return run_text_service(arguments, SCHEDULE, gowashiru_to_rising);
}

enum status run_check(const struct arguments *arguments) {
    second.kind = SCHEDULE;
    if (!read_file(&first, arguments->names[0]) || !read_file(&second, arguments->names[1]))
        return FAILED;
    struct gowashiru_reply reply = gowashiru_check(first.bytes, first.length, second.bytes, second.length);
    if (reply.number != GOWASHIRU_DONE)
        return refused(reply, reply.file == 1 ? &first : &second);
    return written(arguments, "passed\n", strlen("passed\n"));
}

enum status run_least_level(const struct arguments *arguments) {
    if (!read_file(&first, arguments->names[0]))
        return FAILED;
    struct gowashiru_reply reply = gowashiru_least_level(first.bytes, first.length);
    return reply.number != GOWASHIRU_DONE ? refused(reply, &first) : written_number(arguments, reply.length);
}

enum status run_quote(const struct arguments *arguments) {
    if (!read_file(&first, arguments->names[0]))
        return FAILED;
    struct gowashiru_quote_reply quote = gowashiru_quote(first.bytes, first.length);
    if (quote.number != GOWASHIRU_DONE)
        return refused((struct gowashiru_reply){quote.number, quote.file, quote.place, 0}, &first);
    char text[64];
    int length = snprintf(text, sizeof text, "lines\t%" PRIu32 "\nbytes\t%" PRIu32 "\nprice\t%" PRIu32 "\n", quote.lines, quote.bytes,
                          quote.price);
    return written(arguments, text, (size_t)length);
}

static bool read_schedule(const struct arguments *arguments) {
    first.kind = SCHEDULE;
    return read_file(&first, arguments->names[0]);
}

/* Only a schedule that keeps the rules has scales and levels to draw: it is checked against its own erasure. */
enum status run_picture(const struct arguments *arguments) {
    if (!read_schedule(arguments))
        return FAILED;
    struct gowashiru_reply reply = gowashiru_erase(first.bytes, first.length, out, sizeof out);
    if (reply.number == GOWASHIRU_DONE)
        reply = gowashiru_check(out, reply.length, first.bytes, first.length);
    if (reply.number != GOWASHIRU_DONE)
        return refused(reply, &first);
    size_t length = 0;
    char *svg = picture_of(&first, &length);
    if (svg == NULL) {
        fputs("gowashiru: no memory for the picture\n", stderr);
        return FAILED;
    }
    enum status status = written(arguments, svg, length);
    free(svg);
    return status;
}

enum status run_may_drop(const struct arguments *arguments) {
    uint32_t value = arguments->numbers[0], line = arguments->numbers[1];
    if (!read_schedule(arguments))
        return FAILED;
    struct gowashiru_reply reply = gowashiru_may_drop(first.bytes, first.length, value, line);
    if (reply.number != GOWASHIRU_DONE)
        return refused_asking(reply, &value, &line);
    const char *answer = reply.length == 1 ? "yes\n" : "no\n";
    return written(arguments, answer, strlen(answer));
}

enum status run_live_after(const struct arguments *arguments) {
    uint32_t line = arguments->numbers[0];
    if (!read_schedule(arguments))
        return FAILED;
    struct gowashiru_reply reply = gowashiru_live_after(first.bytes, first.length, line);
    return reply.number != GOWASHIRU_DONE ? refused_asking(reply, NULL, &line) : written_number(arguments, reply.length);
}

enum status run_live_peak(const struct arguments *arguments) {
    if (!read_schedule(arguments))
        return FAILED;
    struct gowashiru_reply reply = gowashiru_live_peak(first.bytes, first.length);
    return reply.number != GOWASHIRU_DONE ? refused(reply, &first) : written_number(arguments, reply.length);
}

/* Two bytes, the lowest first. */
static unsigned number_at(const uint8_t *bytes) {
    return bytes[0] + 256u * bytes[1];
}

enum status run_live(const struct arguments *arguments) {
    static char text[SCHEDULE_LINES * sizeof "65535\t65535\t65535\n"];
    if (!read_schedule(arguments))
        return FAILED;
    struct gowashiru_reply reply = gowashiru_live(first.bytes, first.length, out, sizeof out);
    if (reply.number != GOWASHIRU_DONE)
        return refused(reply, &first);
    size_t length = 0;
    for (size_t at = 0; at < reply.length; at += GOWASHIRU_LIVE_VALUE_BYTES)
        length += (size_t)snprintf(text + length, sizeof text - length, "%zu\t%u\t%u\n", at / GOWASHIRU_LIVE_VALUE_BYTES,
                                   number_at(out + at), number_at(out + at + 2));
    return written(arguments, text, length);
}
