/* Prints the scale and level of each line of schedules as the command works them out, up to the first line that the library
 * refuses: standings FILE... The Rust version prints the same. With --listings before them the files are listings: each line of one
 * has to have what the last line has that it becomes in its schedule. */
#include "../include/gowashiru.h"
#include "../tools/standings.h"

#include <inttypes.h>
#include <stdio.h>
#include <string.h>

static struct file schedule, listing;
static uint8_t erasure[GOWASHIRU_ENOUGH_BYTES];
static struct standing held[SCHEDULE_LINES], held_by_listing[SCHEDULE_LINES];

static void print_standing(uint32_t place, struct standing standing) {
    if (standing.has_scale)
        printf("%" PRIu32 " %" PRId64 " %" PRId64 "\n", place, standing.scale, standing.level);
    else
        printf("%" PRIu32 " -\n", place);
}

static uint32_t end_of(const struct file *file) {
    size_t at = 0;
    uint32_t place = 1;
    while (next_line(file, &at).is_there)
        place++;
    return place;
}

static void print_refused_line(uint32_t place) {
    struct header header;
    struct record record;
    if (header_of(&schedule, &header) && record_of(line_at(&schedule, place), &record))
        print_standing(place, standing_of(&header, &record, held));
}

static int print_file(const char *name) {
    schedule.kind = SCHEDULE;
    if (!read_file(&schedule, name))
        return 1;
    struct gowashiru_reply reply = gowashiru_erase(schedule.bytes, schedule.length, erasure, sizeof erasure);
    if (reply.number != GOWASHIRU_DONE)
        return 1;
    reply = gowashiru_check(erasure, reply.length, schedule.bytes, schedule.length);
    uint32_t end = reply.number == GOWASHIRU_DONE ? end_of(&schedule) : reply.place;
    if (!work_out(&schedule, end, held))
        return 1;
    printf("%s\n", name);
    for (uint32_t place = 2; place < end; place++)
        print_standing(place, held[place - 2]);
    if (reply.number == GOWASHIRU_ABOVE_MODULUS || reply.number == GOWASHIRU_BELOW_WATERLINE)
        print_refused_line(end);
    if (reply.number == GOWASHIRU_DONE)
        puts("passed");
    else
        printf("refused %" PRIu32 " %" PRIu32 "\n", reply.number, reply.place);
    return 0;
}

static bool is_same(struct standing one, struct standing other) {
    return one.has_scale == other.has_scale && one.scale == other.scale && one.level == other.level;
}

/* A `ds` line becomes two lines, so what follows it stands one further on. */
static int compare_lines(const char *name) {
    uint32_t end = end_of(&listing), downscales = 0;
    for (uint32_t place = 2; place < end; place++) {
        uint32_t value = place - 2;
        bool is_downscale = is_text(field_at(line_at(&listing, place), 0), "ds");
        downscales += is_downscale;
        if (!is_same(held_by_listing[value], held[value + downscales])) {
            printf("%s:%" PRIu32 ": not what line %" PRIu32 " of its schedule has\n", name, place, place + downscales);
            return 1;
        }
        puts(is_downscale ? "same ds" : "same");
    }
    return 0;
}

static int compare_listing(const char *name) {
    listing.kind = LISTING;
    schedule.kind = SCHEDULE;
    if (!read_file(&listing, name))
        return 1;
    struct gowashiru_reply reply = gowashiru_from_rising(listing.bytes, listing.length, schedule.bytes, sizeof schedule.bytes);
    schedule.length = reply.length;
    if (reply.number != GOWASHIRU_DONE || !work_out(&listing, end_of(&listing), held_by_listing) ||
        !work_out(&schedule, end_of(&schedule), held))
        return 1;
    return compare_lines(name);
}

int main(int count, char **names) {
    bool are_listings = count > 1 && strcmp(names[1], "--listings") == 0;
    for (int i = are_listings ? 2 : 1; i < count; i++)
        if ((are_listings ? compare_listing(names[i]) : print_file(names[i])) != 0)
            return 1;
    return 0;
}
