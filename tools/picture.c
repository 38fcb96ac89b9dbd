/* A schedule as an SVG. First its lines are read and their scales and levels worked out, then columns are laid out in rows, then all is drawn. */
#include "picture.h"
#include "standings.h"

#include <inttypes.h>
#include <stdarg.h>
#include <stdio.h>
#include <stdlib.h>
#include <string.h>

#define DARK "#1b2a3d"
#define GREY "#6a7480"
#define RULE "#c3cad3"
#define RED "#c0272d"
#define SCALE_COLOUR "#2b5c9e"
#define RESERVE "#d3e3f7"
#define HEADROOM "#9fb8a3"
#define ENCODED_SCALE "#a8660a"
#define ENCODED_ROOM "#f9e7c8"
#define DASHES "stroke=\"" RED "\" stroke-width=\"1.5\" stroke-dasharray=\"6 4\""
#define OUTLINE "fill=\"none\" stroke=\"" DARK "\" stroke-width=\"1.5\""

/* Sizes of the drawing. A row is as wide as a page; below its bars stand six lines of text, and one more where there is headroom. */
static const double margin = 20, side = 62, bar = 34, right_side = 74, widest = 1100;
/* A title has room in it, with headroom a longer one. */
static const double narrowest = 640, narrowest_with_headroom = 780;
static const double heading = 56, above_bars = 14, text_height = 108, headroom_line = 13;

enum kind { BARE, ENCODED, CIPHERTEXT };

struct value {
    char word[8], fields[40];
    bool is_struck;
    enum kind kind;
    int64_t scale, level;
    double left, wide;
    size_t row;
};

struct text {
    char *bytes;
    size_t length, room;
    bool failed;
};

struct picture {
    struct text svg;
    struct value *values;
    size_t count, rows;
    struct header header;
    /* The axis goes up to so many levels; a bar of more is cut off. */
    int64_t levels_shown, step;
    bool has_encoded, has_cut;
    double plot, unit, edge, total;
};

static void put(struct text *text, const char *format, ...) {
    if (text->failed)
        return;
    if (text->room - text->length < 1024) {
        char *more = realloc(text->bytes, text->room * 2 + 4096);
        if (!more) {
            text->failed = true;
            return;
        }
        text->bytes = more;
        text->room = text->room * 2 + 4096;
    }
    va_list list;
    va_start(list, format);
    int written = vsnprintf(text->bytes + text->length, text->room - text->length, format, list);
    va_end(list);
    text->length += (size_t)written;
}

/* What is shown of a line: its word, and its fields with spaces between them. */
static struct value shown(struct piece line, const struct record *record, struct standing standing) {
    struct value value = {.is_struck = !is_kept(record->word), .scale = standing.scale, .level = standing.level};
    value.kind = !standing.has_scale ? BARE : strcmp(record->word->name, "enc") == 0 ? ENCODED : CIPHERTEXT;
    snprintf(value.word, sizeof value.word, "%s", record->word->name);
    size_t start = strlen(value.word) + 1;
    for (size_t at = start; at < line.length && at - start < sizeof value.fields - 1; at++)
        value.fields[at - start] = line.bytes[at] == '\t' ? ' ' : (char)line.bytes[at];
    return value;
}

static bool read_schedule(struct picture *picture, const struct file *schedule) {
    static struct standing held[SCHEDULE_LINES];
    struct record record;
    size_t at = 0;
    picture->values = calloc(SCHEDULE_LINES, sizeof *picture->values);
    if (picture->values == NULL || !header_of(schedule, &picture->header))
        return false;
    next_line(schedule, &at);
    for (struct piece line = next_line(schedule, &at); line.is_there && record_of(line, &record); line = next_line(schedule, &at)) {
        held[picture->count] = standing_of(&picture->header, &record, held);
        picture->values[picture->count] = shown(line, &record, held[picture->count]);
        picture->has_encoded |= picture->values[picture->count++].kind == ENCODED;
    }
    return true;
}

/* About the width of a text of font size 11. */
static double width_of(const char *text) {
    double width = 0;
    for (; *text; text++)
        width += 11 * (strchr(" ,.:lijt'", *text) ? 0.32 : strchr("-rf()", *text) ? 0.42 : strchr("mwMW", *text) ? 0.9 : 0.63);
    return width;
}

static double greater(double a, double b) {
    return a > b ? a : b;
}

/* The axis shows every level that is used, but where they are more than four only one more than the scales need: else a low scale could not be seen
 * beside a high modulus. */
static void fit_axis(struct picture *picture) {
    int64_t level = 1, scale = picture->header.waterline, factor = picture->header.factor;
    for (size_t i = 0; i < picture->count; i++) {
        const struct value *value = &picture->values[i];
        level = value->level > level ? value->level : level;
        scale = value->scale > scale ? value->scale : scale;
    }
    int64_t needed = (scale + factor - 1) / factor + 1;
    picture->has_cut = level > 4 && level > needed;
    picture->levels_shown = picture->has_cut ? needed : level;
}

/* Gives each column its width; returns their sum. */
static double widen(struct picture *picture) {
    double sum = 0;
    for (size_t i = 0; i < picture->count; i++) {
        struct value *value = &picture->values[i];
        double text = width_of(value->fields) * (value->is_struck ? 1 : 1.15);
        value->wide = greater(value->kind == BARE ? 42 : 50, text + 10);
        sum += value->wide;
    }
    return sum;
}

/* Puts the columns into rows of about the same width. */
static void lay_out(struct picture *picture) {
    double left = margin + side, room = widest - right_side - left, sum = widen(picture), least_rows = 1;
    while (sum > room * least_rows)
        least_rows++;
    double used = 0, longest = 0;
    for (size_t i = 0; i < picture->count; i++) {
        struct value *value = &picture->values[i];
        if (used + value->wide > room || used >= sum / least_rows) {
            used = 0;
            picture->rows++;
        }
        value->left = left + used;
        value->row = picture->rows;
        used += value->wide;
        longest = greater(longest, used);
    }
    picture->rows++;
    picture->edge = left + longest;
    picture->total = greater(picture->edge + right_side, picture->header.has_headroom ? narrowest_with_headroom : narrowest);
}

/* A row of bars is lower where there are several. */
static void fit_height(struct picture *picture) {
    bool is_one = picture->rows == 1;
    picture->plot = (is_one ? 120 : 90) * (double)picture->levels_shown;
    if (picture->plot > (is_one ? 300 : 180))
        picture->plot = is_one ? 300 : 180;
    picture->unit = picture->plot / (double)(picture->header.factor * picture->levels_shown);
    picture->step = 1;
    while ((double)(picture->step * picture->header.factor) * picture->unit < 16)
        picture->step = picture->step == 1 ? 2 : picture->step == 2 ? 5 : picture->step * 2;
}

/* The height of the text below a row. */
static double text_of(const struct picture *picture) {
    return picture->header.has_headroom ? text_height + headroom_line : text_height;
}

/* The height at which a row's bars stand, and of so many bits in it. */
static double base_of(const struct picture *picture, size_t row) {
    return heading + above_bars + picture->plot + (double)row * (above_bars + picture->plot + text_of(picture));
}

static double height(const struct picture *picture, size_t row, int64_t bits) {
    return base_of(picture, row) - (double)bits * picture->unit;
}

static void rect(struct picture *picture, double x, double y, double wide, double high, const char *look) {
    put(&picture->svg, "<rect x=\"%.1f\" y=\"%.1f\" width=\"%.1f\" height=\"%.1f\" %s/>\n", x, y, wide, high, look);
}

static void across(struct picture *picture, double x, double y, double end, const char *look) {
    put(&picture->svg, "<path d=\"M%.1f %.1fH%.1f\" %s/>\n", x, y, end, look);
}

static void words(struct picture *picture, double x, double y, const char *text, const char *look) {
    put(&picture->svg, "<text x=\"%.1f\" y=\"%.1f\" font-size=\"11\" %s>%s</text>\n", x, y, look, text);
}

static void number(struct picture *picture, double x, double y, int64_t bits, const char *look) {
    char digits[24];
    snprintf(digits, sizeof digits, "%" PRId64, bits);
    words(picture, x, y, digits, look);
}

static void open_outline(struct picture *picture, double x, double top, double wide, double base) {
    put(&picture->svg, "<path d=\"M%.1f %.1fV%.1fH%.1fV%.1f\" %s/>\n", x, top, base, x + wide, top, OUTLINE);
}

static void draw_bar(struct picture *picture, const struct value *value) {
    bool is_encoded = value->kind == ENCODED, is_cut = value->level > picture->levels_shown;
    double x = value->left + (value->wide - bar) / 2, base = base_of(picture, value->row);
    double top = height(picture, value->row, picture->header.factor * (is_cut ? picture->levels_shown : value->level));
    double filled = height(picture, value->row, value->scale);
    rect(picture, x, top, bar, filled - top, is_encoded ? "fill=\"" ENCODED_ROOM "\"" : "fill=\"" RESERVE "\"");
    if (picture->header.has_headroom && !is_cut)
        rect(picture, x, top, bar, (double)picture->header.headroom * picture->unit, "fill=\"" HEADROOM "\"");
    rect(picture, x, filled, bar, base - filled, is_encoded ? "fill=\"" ENCODED_SCALE "\"" : "fill=\"" SCALE_COLOUR "\"");
    if (is_cut)
        open_outline(picture, x, top - 6, bar, base);
    else
        rect(picture, x, top, bar, base - top, OUTLINE);
}

/* The line as it is written, and its numbers, below its bar. */
static void draw_text(struct picture *picture, size_t index) {
    const struct value *value = &picture->values[index];
    double x = value->left + value->wide / 2, base = base_of(picture, value->row);
    const char *grey = "text-anchor=\"middle\" fill=\"" GREY "\"", *plain = "text-anchor=\"middle\" fill=\"" DARK "\"";
    const char *look = value->is_struck ? grey : "text-anchor=\"middle\" font-weight=\"bold\" fill=\"" DARK "\"";
    number(picture, x, base + 15, (int64_t)index, grey);
    words(picture, x, base + 30, value->word, look);
    words(picture, x, base + 43, value->fields, look);
    if (value->kind == BARE)
        return;
    number(picture, x, base + 60, value->scale,
           value->kind == ENCODED ? "text-anchor=\"middle\" fill=\"" ENCODED_SCALE "\"" : "text-anchor=\"middle\" fill=\"" SCALE_COLOUR "\"");
    number(picture, x, base + 73, value->level, plain);
    if (value->kind != CIPHERTEXT)
        return;
    int64_t reserve = picture->header.factor * value->level - value->scale;
    number(picture, x, base + 86, reserve, plain);
    if (picture->header.has_headroom)
        number(picture, x, base + 99, reserve - picture->header.headroom, plain);
}

/* The grid of a row, with the bits of each level that has room for them, and what the lines of text below it are. */
static void draw_axis(struct picture *picture, size_t row) {
    static const char *const names[] = {"value", "line", "", "scale", "level", "reserve", "less H"};
    static const double below[] = {15, 30, 43, 60, 73, 86, 99};
    double left = margin + side;
    int64_t factor = picture->header.factor;
    for (int64_t level = 0; level <= picture->levels_shown; level += picture->step) {
        char bits[24];
        snprintf(bits, sizeof bits, level ? "%" PRId64 " bits" : "%" PRId64, factor * level);
        double y = height(picture, row, factor * level);
        across(picture, left - 6, y, picture->edge + 6, "stroke=\"" RULE "\"");
        words(picture, left - 10, y + 4, bits, "text-anchor=\"end\" fill=\"" GREY "\"");
    }
    for (int i = 0; i < (picture->header.has_headroom ? 7 : 6); i++)
        words(picture, left - 10, base_of(picture, row) + below[i], names[i], "text-anchor=\"end\" fill=\"" GREY "\"");
}

static void draw_waterline(struct picture *picture, size_t row) {
    char bits[24];
    double left = margin + side - 6, right = picture->edge + 6, y = height(picture, row, picture->header.waterline);
    snprintf(bits, sizeof bits, "W = %" PRId64, picture->header.waterline);
    across(picture, left, y, right, "stroke=\"#ffffff\" stroke-opacity=\"0.8\" stroke-width=\"3.5\" stroke-dasharray=\"6 4\"");
    across(picture, left, y, right, DASHES);
    words(picture, right + 4, y + 4, bits, "font-weight=\"bold\" fill=\"" RED "\"");
}

enum sign { BOX, FRAME, OPEN, DASHED, GRID, BOLD, PLAIN };

/* One entry of the legend; the next row where this one is full. */
static void entry(struct picture *picture, double *x, double *y, enum sign sign, const char *colour, const char *text) {
    double gap = sign == BOLD || sign == PLAIN ? 32 : 24, need = gap + width_of(text) + 18;
    char look[96];
    if (*x > margin && *x + need > picture->total) {
        *x = margin;
        *y += 20;
    }
    snprintf(look, sizeof look, sign == BOLD ? "font-weight=\"bold\" fill=\"%s\"" : sign == GRID ? "stroke=\"%s\"" : "fill=\"%s\"", colour);
    if (sign == BOX)
        rect(picture, *x, *y - 10, 16, 12, look);
    else if (sign == FRAME)
        rect(picture, *x, *y - 10, 16, 12, OUTLINE);
    else if (sign == OPEN)
        open_outline(picture, *x, *y - 10, 16, *y + 2);
    else if (sign == DASHED || sign == GRID)
        across(picture, *x, *y - 4, *x + 18, sign == GRID ? look : DASHES);
    else
        words(picture, *x, *y, sign == BOLD ? "mul" : "rs", look);
    words(picture, *x + gap, *y, text, "fill=\"" DARK "\"");
    *x += need;
}

/* The legend; returns the height at which it ends. */
static double draw_legend(struct picture *picture) {
    double x = margin, y = base_of(picture, picture->rows - 1) + text_of(picture);
    entry(picture, &x, &y, FRAME, DARK, "modulus, F times level bits");
    if (picture->has_cut)
        entry(picture, &x, &y, OPEN, DARK, "modulus that goes on above the axis");
    entry(picture, &x, &y, BOX, SCALE_COLOUR, "scale of a ciphertext");
    entry(picture, &x, &y, BOX, RESERVE, "its reserve, modulus less scale");
    if (picture->has_encoded) {
        entry(picture, &x, &y, BOX, ENCODED_SCALE, "scale of an encoded constant");
        entry(picture, &x, &y, BOX, ENCODED_ROOM, "modulus less that scale");
    }
    if (picture->header.has_headroom)
        entry(picture, &x, &y, BOX, HEADROOM, "headroom H, which no scale takes up");
    entry(picture, &x, &y, DASHED, RED, "waterline W, the least scale");
    entry(picture, &x, &y, GRID, RULE, picture->step == 1 ? "the modulus at each level" : "the modulus at some levels");
    entry(picture, &x, &y, BOLD, DARK, "a line of the circuit");
    entry(picture, &x, &y, PLAIN, GREY, "a line that erasing strikes");
    return y + 18;
}

static void draw_rows(struct picture *picture) {
    for (size_t row = 0; row < picture->rows; row++)
        draw_axis(picture, row);
    for (size_t i = 0; i < picture->count; i++)
        if (picture->values[i].kind != BARE)
            draw_bar(picture, &picture->values[i]);
    for (size_t row = 0; row < picture->rows; row++)
        draw_waterline(picture, row);
    for (size_t i = 0; i < picture->count; i++)
        draw_text(picture, i);
}

static void title_of(const struct picture *picture, char *title, size_t room) {
    const struct header *header = &picture->header;
    int length = snprintf(title, room, "Schedule: rescale factor F = %" PRId64 ", waterline W = %" PRId64 ", top level L = %" PRId64, header->factor,
                          header->waterline, header->top_level);
    if (header->has_headroom)
        snprintf(title + length, room - (size_t)length, ", headroom H = %" PRId64, header->headroom);
}

static void draw(struct picture *picture) {
    char title[128];
    title_of(picture, title, sizeof title);
    /* Drawn once to find the height, and then anew: the height stands first in the file. */
    double high = draw_legend(picture);
    picture->svg.length = 0;
    put(&picture->svg, "<svg xmlns=\"http://www.w3.org/2000/svg\" viewBox=\"0 0 %.1f %.1f\" width=\"%.1f\" height=\"%.1f\" ", picture->total, high,
        picture->total, high);
    put(&picture->svg, "font-family=\"sans-serif\" role=\"img\">\n<title>%s</title>\n", title);
    rect(picture, 0.5, 0.5, picture->total - 1, high - 1, "rx=\"8\" fill=\"#ffffff\" stroke=\"" RULE "\"");
    put(&picture->svg, "<text x=\"%.1f\" y=\"30.0\" font-size=\"14\" font-weight=\"bold\" fill=\"" DARK "\">%s</text>\n", margin, title);
    draw_rows(picture);
    draw_legend(picture);
    put(&picture->svg, "</svg>\n");
}

char *picture_of(const struct file *schedule, size_t *svg_len) {
    struct picture picture = {.svg = {.failed = false}};
    if (!read_schedule(&picture, schedule)) {
        free(picture.values);
        return NULL;
    }
    fit_axis(&picture);
    lay_out(&picture);
    fit_height(&picture);
    draw(&picture);
    free(picture.values);
    if (picture.svg.failed) {
        free(picture.svg.bytes);
        return NULL;
    }
    *svg_len = picture.svg.length;
    return picture.svg.bytes;
}
