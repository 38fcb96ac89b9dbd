/*
 * The services in plain C, after documents 01 and 02 and the Rust version: a yardstick for the time of the proved archive, and no
 * independent witness. One pass over the bytes, nothing cleared, no heap. Its replies are compared with the archive's wherever that is
 * tested or timed; nothing is proved of it.
 */
#include "../include/gowashiru.h"
#include <stdbool.h>
#include <string.h>

typedef struct gowashiru_reply reply;
typedef struct gowashiru_quote_reply quote_reply;

reply yardstick_plan(const uint8_t *circuit, size_t circuit_len, uint8_t *out, size_t out_len);
reply yardstick_check(const uint8_t *circuit, size_t circuit_len, const uint8_t *schedule, size_t schedule_len);
reply yardstick_erase(const uint8_t *schedule, size_t schedule_len, uint8_t *out, size_t out_len);
reply yardstick_least_level(const uint8_t *circuit, size_t circuit_len);
reply yardstick_from_rising(const uint8_t *listing, size_t listing_len, uint8_t *out, size_t out_len);
reply yardstick_to_rising(const uint8_t *schedule, size_t schedule_len, uint8_t *out, size_t out_len);
quote_reply yardstick_quote(const uint8_t *circuit, size_t circuit_len);
reply yardstick_may_drop(const uint8_t *schedule, size_t schedule_len, uint32_t value, uint32_t line);
reply yardstick_live_after(const uint8_t *schedule, size_t schedule_len, uint32_t line);
reply yardstick_live_peak(const uint8_t *schedule, size_t schedule_len);
reply yardstick_live(const uint8_t *schedule, size_t schedule_len, uint8_t *out, size_t out_len);

enum {
    CIRCUIT_LINES = 256,
    SCHEDULE_LINES = 1792,
    KEPT_LINES = 256,
    FIELD_BYTES = 11,
    TOP_LEVELS = 60,
    /* The longest header has 21 bytes, the longest line 17: an enc or a const. A word is written as 5 bytes, of which only its own count. */
    TEXT_BYTES = 21 + 17 * SCHEDULE_LINES + 3
};

/* The words of a circuit come first: erasing keeps their lines. */
enum word { IN, CONST, NEG, ROT, ADD, MUL, OUT, ENC, RS, MS, US, DS, NO_WORD };
enum kind { CIPHERTEXT, CONSTANT, ENCODED, UNUSABLE };
/* A schedule that is turned into a listing is read as one to erase. In a listing's table the level of an enc is the remaining one. */
enum reading { CIRCUIT, SCHEDULE, SCHEDULE_TO_ERASE, LISTING };

/* A line: operands and numbers in the order written, 0 where there is none. A rotation is held in two's complement, a constant number in two
 * halves, the lower first: so every byte of a record counts, and two records are compared as bytes. */
struct line {
    uint8_t word, kind;
    uint16_t first, second, third;
};

/* The headroom, H, is 0 where the header has three numbers. */
struct header {
    int32_t factor, waterline, top_level, headroom;
};

struct file {
    struct header header;
    uint32_t count;
    struct line *lines;
};

static reply success(uint32_t length) {
    return (reply){0, 0, 0, length};
}

static reply refused(uint32_t number, uint32_t file, uint32_t place) {
    return (reply){number, file, place, 0};
}

/* Reading. Only closed lines are read, so all that goes along a line stops at its line feed: that is no digit, no letter and no tab. */

/* Compiled anew for each kind of file, so that what the kind decides is decided before. */
#define FOR_EACH_KIND static inline __attribute__((always_inline))

/* Digits: at most so many, no leading zero. A longer number wraps, and its length refuses it. */
static inline bool read_digits(const uint8_t **place, size_t most, uint64_t *number) {
    const uint8_t *start = *place, *at = start + 1;
    uint64_t value = *start - (uint64_t)'0';
    if (value > 9)
        return false;
    for (unsigned digit; (digit = *at - (unsigned)'0') <= 9; at++)
        value = value * 10 + digit;
    *place = at;
    *number = value;
    size_t length = (size_t)(at - start);
    return length == 1 || (length <= most && *start != '0');
}

/* A tab and a number. */
static inline bool read_number(const uint8_t **place, uint64_t *number) {
    return *(*place)++ == '\t' && read_digits(place, FIELD_BYTES, number);
}

/* A tab and a rotation: "a minus stands only before a nonzero rotation". */
static inline bool read_rotation(const uint8_t **place, int64_t *rotation) {
    if (*(*place)++ != '\t')
        return false;
    uint64_t number;
    bool minus = **place == '-';
    *place += minus;
    bool formed = read_digits(place, FIELD_BYTES - minus, &number);
    *rotation = minus ? -(int64_t)number : (int64_t)number;
    return formed && !(minus && number == 0);
}

static inline bool read_end(const uint8_t **place) {
    return *(*place)++ == '\n';
}

/* Goes past a word if it stands here. */
static inline bool read_spelling(const uint8_t **place, const char *word) {
    const uint8_t *at = *place;
    while (*word)
        if (*at++ != (uint8_t)*word++)
            return false;
    *place = at;
    return true;
}

static inline enum word read_word(const uint8_t **place) {
    switch (**place) {
    case 'i': return read_spelling(place, "in") ? IN : NO_WORD;
    case 'c': return read_spelling(place, "const") ? CONST : NO_WORD;
    case 'n': return read_spelling(place, "neg") ? NEG : NO_WORD;
    case 'a': return read_spelling(place, "add") ? ADD : NO_WORD;
    case 'o': return read_spelling(place, "out") ? OUT : NO_WORD;
    case 'e': return read_spelling(place, "enc") ? ENC : NO_WORD;
    case 'u': return read_spelling(place, "us") ? US : NO_WORD;
    case 'd': return read_spelling(place, "ds") ? DS : NO_WORD;
    case 'r': return read_spelling(place, "rs") ? RS : read_spelling(place, "rot") ? ROT : NO_WORD;
    case 'm': return read_spelling(place, "ms") ? MS : read_spelling(place, "mul") ? MUL : NO_WORD;
    default: return NO_WORD;
    }
}

static inline bool is_circuit_word(enum word word) {
    return word < ENC;
}

/* 4 or 5 for an operand that must be of this kind, else 0. */
static inline uint32_t operand_fault(const struct file *file, uint64_t operand, enum kind kind) {
    if (operand >= file->count)
        return 4;
    enum kind found = file->lines[operand].kind;
    return found == kind ? 0 : found == UNUSABLE ? 4 : 5;
}

/* The same for add and mul: two ciphertexts, or one and a constant of the kind that the file has. */
static inline uint32_t pair_fault(const struct file *file, uint64_t a, uint64_t b, enum kind constant) {
    if (a >= file->count || b >= file->count)
        return 4;
    enum kind first = file->lines[a].kind, second = file->lines[b].kind;
    if (first == CIPHERTEXT && second == CIPHERTEXT)
        return 0;
    if (first == UNUSABLE || second == UNUSABLE)
        return 4;
    return (first == CIPHERTEXT && second == constant) || (first == constant && second == CIPHERTEXT) ? 0 : 5;
}

/* Each of these reads what follows a word and gives 0 or a refusal: "per line .. 1, 2 or 11, 4, 5". */

static inline uint32_t read_constant(const uint8_t **place, struct line *line) {
    uint64_t number;
    if (!read_number(place, &number) || !read_end(place))
        return 1;
    *line = (struct line){CONST, CONSTANT, (uint16_t)number, (uint16_t)(number >> 16), 0};
    return number > UINT32_MAX ? 11 : 0;
}

/* neg, out, ds */
static inline uint32_t read_one(const uint8_t **place, enum word word, const struct file *file, struct line *line) {
    uint64_t a;
    if (!read_number(place, &a) || !read_end(place))
        return 1;
    *line = (struct line){(uint8_t)word, word == OUT ? UNUSABLE : CIPHERTEXT, (uint16_t)a, 0, 0};
    return operand_fault(file, a, CIPHERTEXT);
}

static inline uint32_t read_turn(const uint8_t **place, const struct file *file, struct line *line) {
    uint64_t a;
    int64_t rotation;
    if (!read_number(place, &a) || !read_rotation(place, &rotation) || !read_end(place))
        return 1;
    *line = (struct line){ROT, CIPHERTEXT, (uint16_t)a, (uint16_t)rotation, 0};
    return rotation < -32767 || rotation > 32767 ? 11 : operand_fault(file, a, CIPHERTEXT);
}

/* add, mul */
static inline uint32_t read_pair(const uint8_t **place, enum word word, enum kind constant, const struct file *file, struct line *line) {
    uint64_t a, b;
    if (!read_number(place, &a) || !read_number(place, &b) || !read_end(place))
        return 1;
    *line = (struct line){(uint8_t)word, CIPHERTEXT, (uint16_t)a, (uint16_t)b, 0};
    return pair_fault(file, a, b, constant);
}

FOR_EACH_KIND uint32_t read_encoded(const uint8_t **place, enum reading reading, const struct file *file, struct line *line) {
    uint64_t a, scale, level;
    if (!read_number(place, &a) || !read_number(place, &scale) || !read_number(place, &level) || !read_end(place))
        return 1;
    if (reading == LISTING)
        level = (uint64_t)file->header.top_level - level;
    *line = (struct line){ENC, ENCODED, (uint16_t)a, (uint16_t)scale, (uint16_t)level};
    bool inside = scale - 1 < 3600 && level - 1 < (uint64_t)file->header.top_level;
    return inside ? operand_fault(file, a, CONSTANT) : 11;
}

/* rs, ms, us */
static inline uint32_t read_conversion(const uint8_t **place, enum word word, uint64_t most, const struct file *file, struct line *line) {
    uint64_t a, number;
    if (!read_number(place, &a) || !read_number(place, &number) || !read_end(place))
        return 1;
    *line = (struct line){(uint8_t)word, CIPHERTEXT, (uint16_t)a, (uint16_t)number, 0};
    return number - 1 < most ? operand_fault(file, a, CIPHERTEXT) : 11;
}

/* The rest of a line, into the record after the last. */
FOR_EACH_KIND uint32_t read_line(const uint8_t **place, enum word word, enum reading reading, const struct file *file) {
    struct line *line = &file->lines[file->count];
    switch (word) {
    case IN: *line = (struct line){IN, CIPHERTEXT, 0, 0, 0}; return read_end(place) ? 0 : 1;
    case CONST: return read_constant(place, line);
    case NEG:
    case OUT: return read_one(place, word, file, line);
    case ROT: return read_turn(place, file, line);
    case ADD:
    case MUL: return read_pair(place, word, reading == CIRCUIT ? CONSTANT : ENCODED, file, line);
    case ENC: return reading == CIRCUIT ? 1 : read_encoded(place, reading, file, line);
    case RS:
    case MS: return reading == CIRCUIT ? 1 : read_conversion(place, word, 60, file, line);
    case US: return reading == CIRCUIT ? 1 : read_conversion(place, word, 3600, file, line);
    case DS: return reading == LISTING ? read_one(place, word, file, line) : 1;
    default: return 1;
    }
}

/* 0, 1 or 2. */
static inline uint32_t read_header(const uint8_t **place, enum reading reading, struct header *header) {
    uint64_t factor, waterline, top_level, headroom = 0;
    const char *word = reading == CIRCUIT ? "circuit" : reading == LISTING ? "rising" : "schedule";
    if (!read_spelling(place, word) || !read_number(place, &factor))
        return 1;
    if (!read_number(place, &waterline) || !read_number(place, &top_level))
        return 1;
    bool has_headroom = **place == '\t';
    if ((has_headroom && !read_number(place, &headroom)) || !read_end(place))
        return 1;
    *header = (struct header){(int32_t)factor, (int32_t)waterline, (int32_t)top_level, (int32_t)headroom};
    bool inside = factor - 1 < 60 && waterline - 1 < 60 && top_level - 1 < 60;
    return inside && (!has_headroom || headroom - 1 < 60) ? 0 : 2;
}

/* Whether a first field that is a circuit's word stands here: the 257th such line is one too many for erasing. */
static inline bool begins_kept(const uint8_t *at) {
    enum word word = read_word(&at);
    return is_circuit_word(word) && (*at == '\t' || *at == '\n');
}

/* The same of a line that no line feed closes: as much of it as a word needs is closed here. */
static bool begins_kept_unclosed(const uint8_t *at, const uint8_t *end) {
    uint8_t first[8];
    size_t length = (size_t)(end - at) < 7 ? (size_t)(end - at) : 7;
    memcpy(first, at, length);
    first[length] = '\n';
    return begins_kept(first);
}

/* The place after the last line feed. */
static inline const uint8_t *end_of_closed(const uint8_t *bytes, size_t length) {
    while (length > 0 && bytes[length - 1] != '\n')
        length--;
    return bytes + length;
}

/* Reads a whole file into a table: "Files are read top to bottom; .. per line 3, 1, 2 or 11, 4, 5". */
FOR_EACH_KIND reply read_file(const uint8_t *bytes, size_t length, enum reading reading, uint32_t number, struct file *file) {
    const uint32_t limit = reading == CIRCUIT ? CIRCUIT_LINES : SCHEDULE_LINES;
    const bool limits_kept = reading == SCHEDULE_TO_ERASE || reading == LISTING;
    const uint8_t *at = bytes, *end = bytes + length, *closed = end_of_closed(bytes, length);
    uint32_t kept = 0, fault = closed == bytes ? 1 : read_header(&at, reading, &file->header);
    if (fault)
        return refused(fault, number, 1);
    file->count = 0;
    while (at < closed) {
        if (file->count == limit || (limits_kept && kept == KEPT_LINES && begins_kept(at)))
            return refused(3, number, file->count + 2);
        enum word word = read_word(&at);
        fault = read_line(&at, word, reading, file);
        if (fault)
            return refused(fault, number, file->count + 2);
        kept += is_circuit_word(word);
        file->count++;
    }
    if (at == end)
        return success(0);
    bool many = file->count == limit || (limits_kept && kept == KEPT_LINES && begins_kept_unclosed(at, end));
    return refused(many ? 3 : 1, number, file->count + 2);
}

/* Writing. */

static inline uint32_t digits_of(uint32_t number) {
    return number < 10 ? 1 : number < 100 ? 2 : number < 1000 ? 3 : number < 10000 ? 4 : 5;
}

/* A number of at most five digits. */
static inline uint8_t *put_digits(uint8_t *at, uint32_t number) {
    uint32_t digits = digits_of(number);
    for (uint32_t i = digits; i-- > 0; number /= 10)
        at[i] = (uint8_t)('0' + number % 10);
    return at + digits;
}

static inline uint8_t *put_number(uint8_t *at, uint32_t number) {
    *at++ = '\t';
    return put_digits(at, number);
}

/* A constant number: at most five digits, or at most five and then the last five with their zeros. */
static inline uint8_t *put_constant(uint8_t *at, uint32_t number) {
    if (number < 100000)
        return put_number(at, number);
    at = put_number(at, number / 100000);
    number %= 100000;
    for (uint32_t i = 5; i-- > 0; number /= 10)
        at[i] = (uint8_t)('0' + number % 10);
    return at + 5;
}

static inline uint8_t *put_rotation(uint8_t *at, int32_t rotation) {
    *at++ = '\t';
    if (rotation < 0)
        *at++ = '-';
    return put_digits(at, (uint32_t)(rotation < 0 ? -rotation : rotation));
}

static inline uint8_t *put_word(uint8_t *at, enum word word) {
    static const char words[][5] = {"in", "const", "neg", "rot", "add", "mul", "out", "enc", "rs", "ms", "us"};
    static const uint8_t lengths[] = {2, 5, 3, 3, 3, 3, 3, 3, 2, 2, 2};
    memcpy(at, words[word], 5);
    return at + lengths[word];
}

static inline uint8_t *put_header(uint8_t *at, const char *word, const struct header *header) {
    while (*word)
        *at++ = (uint8_t)*word++;
    at = put_number(at, (uint32_t)header->factor);
    at = put_number(at, (uint32_t)header->waterline);
    at = put_number(at, (uint32_t)header->top_level);
    if (header->headroom)
        at = put_number(at, (uint32_t)header->headroom);
    *at++ = '\n';
    return at;
}

/* A line with a circuit's word and these operands. */
static inline uint8_t *put_kept(uint8_t *at, const struct line *line, uint32_t a, uint32_t b) {
    at = put_word(at, line->word);
    switch (line->word) {
    case IN:
        break;
    case CONST:
        at = put_constant(at, line->first | (uint32_t)line->second << 16);
        break;
    case ROT:
        at = put_number(at, a);
        at = put_rotation(at, (int16_t)line->second);
        break;
    case ADD:
    case MUL:
        at = put_number(at, a);
        at = put_number(at, b);
        break;
    default:
        at = put_number(at, a);
    }
    *at++ = '\n';
    return at;
}

/* Planning. */

/* A circuit value: its best reserve, m of that reserve, and the level and the number that its line has in the schedule. A constant has more
 * reserve than any ciphertext, at a higher m: so it comes to the ciphertext's reserve in a sum and to scale W in a product. */
struct value {
    int32_t reserve, lowest, level;
    uint32_t number;
};

static const struct value constant = {1 << 20, 1 << 20, 0, 0};

/* How a line is done: its operands' reserves, its level, and the reserve of the result with its m. */
struct step {
    int32_t first, second, level, reserve, lowest;
};

/* "m(r) is the smallest whole level with F·m ≥ r + W". Below zero no m is asked for. */
static inline int32_t lowest_level(const struct header *header, int32_t reserve) {
    uint32_t bits = (uint32_t)(reserve + header->waterline + header->factor - 1);
    return reserve < 0 ? 0 : (int32_t)(bits / (uint32_t)header->factor);
}

/* A line that changes no reserve: operands and result have the reserve and the level m of it. */
static inline struct step unchanged(const struct value *value) {
    return (struct step){value->reserve, value->reserve, value->lowest, value->reserve, value->lowest};
}

static inline struct step product(const struct header *header, const struct value *a, const struct value *b) {
    int32_t factor = header->factor, waterline = header->waterline;
    struct step step;
    if (a->lowest == b->lowest) {
        int32_t here = a->reserve + b->reserve - factor * a->lowest, below = factor * (a->lowest - 1) - 2 * waterline;
        if (here > below)
            step = (struct step){a->reserve, b->reserve, a->lowest, here, 0};
        else
            step = (struct step){below + waterline, below + waterline, a->lowest - 1, below, 0};
    } else if (a->lowest < b->lowest) {
        step = (struct step){a->reserve, factor * a->lowest - waterline, a->lowest, a->reserve - waterline, 0};
    } else {
        step = (struct step){factor * b->lowest - waterline, b->reserve, b->lowest, b->reserve - waterline, 0};
    }
    step.lowest = lowest_level(header, step.reserve);
    return step;
}

static inline struct step step_of(const struct header *header, const struct line *line, const struct value *values) {
    const struct value *a = &values[line->first];
    int32_t full = header->factor * header->top_level - header->waterline;
    switch (line->word) {
    case IN: return (struct step){full, full, header->top_level, full, header->top_level};
    case ADD: return unchanged(a->reserve < values[line->second].reserve ? a : &values[line->second]);
    case MUL: return product(header, a, &values[line->second]);
    /* "`out` names the value as it is". */
    case OUT: return (struct step){a->reserve, a->reserve, a->level, a->reserve, a->lowest};
    default: return unchanged(a);
    }
}

/* The text of a schedule so far, and the number of its next line. */
struct draft {
    uint8_t *at;
    uint32_t next;
};

static inline uint32_t put_struck(struct draft *draft, enum word word, uint32_t a, int32_t number) {
    draft->at = put_word(draft->at, word);
    draft->at = put_number(draft->at, a);
    draft->at = put_number(draft->at, (uint32_t)number);
    *draft->at++ = '\n';
    return draft->next++;
}

/* "Bringing a value from (r, l) to (r′, l′)": its modswitches, the bits that it is raised by and its rescales, each 0 where there are none. */
struct way {
    int32_t modswitches, bits, rescales;
};

static inline struct way way_to(const struct header *header, const struct value *from, int32_t reserve, int32_t level) {
    int32_t factor = header->factor, spent = from->reserve - reserve, levels = from->level - level;
    int32_t modswitches = 0;
    if (spent >= factor && levels > 0)
        modswitches = spent / factor < levels ? spent / factor : levels;
    return (struct way){modswitches, spent - modswitches * factor, levels - modswitches};
}

/* The number of the line that holds a value brought there. A constant is encoded. */
static inline uint32_t bring(struct draft *draft, const struct header *header, const struct value *from, int32_t reserve, int32_t level) {
    uint32_t number = from->number;
    if (from->reserve == constant.reserve) {
        draft->at = put_word(draft->at, ENC);
        draft->at = put_number(draft->at, number);
        draft->at = put_number(draft->at, (uint32_t)(header->factor * level - reserve));
        draft->at = put_number(draft->at, (uint32_t)level);
        *draft->at++ = '\n';
        return draft->next++;
    }
    struct way way = way_to(header, from, reserve, level);
    if (way.modswitches)
        number = put_struck(draft, MS, number, way.modswitches);
    if (way.bits)
        number = put_struck(draft, US, number, way.bits);
    if (way.rescales > 0)
        number = put_struck(draft, RS, number, way.rescales);
    return number;
}

/* The schedule's line for a circuit's line, after the lines that bring its operands. */
static inline uint32_t put_planned(struct draft *draft, const struct header *header, const struct line *line, const struct value *values,
                                   const struct step *step) {
    uint32_t a = 0, b = 0;
    if (line->word >= NEG)
        a = bring(draft, header, &values[line->first], step->first, step->level);
    if (line->word == ADD || line->word == MUL)
        b = bring(draft, header, &values[line->second], step->second, step->level);
    draft->at = put_kept(draft->at, line, a, b);
    return draft->next++;
}

/* The text goes to the caller once it is whole: a refused call has changed no byte. */
static reply lend(const uint8_t *text, const uint8_t *end, uint8_t *out, size_t out_len) {
    size_t length = (size_t)(end - text);
    if (length > out_len)
        return refused(13, 0, 0);
    memcpy(out, text, length);
    return success((uint32_t)length);
}

reply yardstick_plan(const uint8_t *bytes, size_t bytes_len, uint8_t *out, size_t out_len) {
    struct line lines[CIRCUIT_LINES];
    struct value values[CIRCUIT_LINES];
    uint8_t text[TEXT_BYTES];
    struct file circuit = {.lines = lines};
    reply read = read_file(bytes, bytes_len, CIRCUIT, 1, &circuit);
    if (read.number)
        return read;
    struct draft draft = {put_header(text, "schedule", &circuit.header), 0};
    for (uint32_t n = 0; n < circuit.count; n++) {
        const struct line *line = &lines[n];
        if (line->word == CONST) {
            values[n] = constant;
            draft.at = put_kept(draft.at, line, 0, 0);
            values[n].number = draft.next++;
            continue;
        }
        struct step step = step_of(&circuit.header, line, values);
        if (step.reserve < circuit.header.headroom)
            return refused(6, 1, n + 2);
        uint32_t number = put_planned(&draft, &circuit.header, line, values, &step);
        values[n] = (struct value){step.reserve, step.lowest, step.level, number};
    }
    return lend(text, draft.at, out, out_len);
}

/* Quoting: the plan's walk, in which each line is counted and none is written. */

/* "Price per level at which an operation starts"; a mul with a constant has its own. */
static const uint8_t prices[] = {[NEG] = 1, [ROT] = 32, [ADD] = 1, [MUL] = 40, [ENC] = 2, [RS] = 6, [MS] = 1, [US] = 4};
enum { PRICE_WITH_CONSTANT = 4 };

/* The schedule so far, its header among the lines. */
struct count {
    uint32_t lines, bytes, price;
};

/* A line of so many bytes and of this price: its number. */
static inline uint32_t count_line(struct count *count, uint32_t bytes, uint32_t price) {
    count->bytes += bytes;
    count->price += price;
    return count->lines++ - 1;
}

/* rs or ms: "Each of the C rescales or modswitches is priced at its own level", l, l − 1 and on to l − C + 1. */
static inline uint32_t count_steps(struct count *count, enum word word, uint32_t a, uint32_t steps, uint32_t level) {
    uint32_t levels = steps * (2 * level + 1 - steps) / 2;
    return count_line(count, 5 + digits_of(a) + digits_of(steps), prices[word] * levels);
}

/* The lines that bring a value, as `bring` writes them. */
static inline uint32_t count_brought(struct count *count, const struct header *header, const struct value *from, int32_t reserve,
                                     int32_t level) {
    uint32_t number = from->number;
    if (from->reserve == constant.reserve) {
        uint32_t scale = (uint32_t)(header->factor * level - reserve), at = (uint32_t)level;
        return count_line(count, 7 + digits_of(number) + digits_of(scale) + digits_of(at), prices[ENC] * at);
    }
    struct way way = way_to(header, from, reserve, level);
    uint32_t modswitches = (uint32_t)way.modswitches, bits = (uint32_t)way.bits, at = (uint32_t)from->level;
    if (modswitches)
        number = count_steps(count, MS, number, modswitches, at);
    at -= modswitches;
    if (bits)
        number = count_line(count, 5 + digits_of(number) + digits_of(bits), prices[US] * at);
    if (way.rescales > 0)
        number = count_steps(count, RS, number, (uint32_t)way.rescales, at);
    return number;
}

/* A constant number: at most five digits, or at most five and then five. */
static inline uint32_t count_constant(struct count *count, const struct line *line) {
    uint32_t number = line->first | (uint32_t)line->second << 16;
    return count_line(count, 7 + (number < 100000 ? digits_of(number) : 5 + digits_of(number / 100000)), 0);
}

/* A tab, a minus where there is one, and the digits. */
static inline uint32_t rotation_bytes(int32_t rotation) {
    return rotation < 0 ? 2 + digits_of((uint32_t)-rotation) : 1 + digits_of((uint32_t)rotation);
}

/* The schedule's line for a circuit's line, after the lines that bring its operands. */
static inline uint32_t count_planned(struct count *count, const struct header *header, const struct line *line, const struct value *values,
                                     const struct step *step) {
    uint32_t price = prices[line->word] * (uint32_t)step->level;
    if (line->word == IN)
        return count_line(count, 3, price);
    const struct value *first = &values[line->first];
    uint32_t bytes = 5 + digits_of(count_brought(count, header, first, step->first, step->level));
    if (line->word == ROT)
        bytes += rotation_bytes((int16_t)line->second);
    if (line->word == ADD || line->word == MUL) {
        const struct value *second = &values[line->second];
        bytes += 1 + digits_of(count_brought(count, header, second, step->second, step->level));
        bool with_constant = first->reserve == constant.reserve || second->reserve == constant.reserve;
        if (line->word == MUL && with_constant)
            price = PRICE_WITH_CONSTANT * (uint32_t)step->level;
    }
    return count_line(count, bytes, price);
}

static inline uint32_t header_bytes(const struct header *header) {
    uint32_t numbers = digits_of((uint32_t)header->factor) + digits_of((uint32_t)header->waterline) + digits_of((uint32_t)header->top_level);
    uint32_t headroom = header->headroom ? 1 + digits_of((uint32_t)header->headroom) : 0;
    return (uint32_t)strlen("schedule") + 3 + numbers + headroom + 1;
}

/* The planner's own refusal. */
static inline quote_reply quote_refused(reply own) {
    return (quote_reply){own.number, own.file, own.place, 0, 0, 0};
}

quote_reply yardstick_quote(const uint8_t *bytes, size_t bytes_len) {
    struct line lines[CIRCUIT_LINES];
    struct value values[CIRCUIT_LINES];
    struct file circuit = {.lines = lines};
    reply read = read_file(bytes, bytes_len, CIRCUIT, 1, &circuit);
    if (read.number)
        return quote_refused(read);
    struct count count = {1, header_bytes(&circuit.header), 0};
    for (uint32_t n = 0; n < circuit.count; n++) {
        const struct line *line = &lines[n];
        if (line->word == CONST) {
            values[n] = constant;
            values[n].number = count_constant(&count, line);
            continue;
        }
        struct step step = step_of(&circuit.header, line, values);
        if (step.reserve < circuit.header.headroom)
            return quote_refused(refused(6, 1, n + 2));
        uint32_t number = count_planned(&count, &circuit.header, line, values, &step);
        values[n] = (struct value){step.reserve, step.lowest, step.level, number};
    }
    return (quote_reply){0, 0, 0, count.lines, count.bytes, count.price};
}

/* The first line with a best reserve below zero, or below H, or the number of lines. */
static inline uint32_t first_short(const struct file *circuit, struct value *values) {
    for (uint32_t n = 0; n < circuit->count; n++) {
        if (circuit->lines[n].word == CONST) {
            values[n] = constant;
            continue;
        }
        struct step step = step_of(&circuit->header, &circuit->lines[n], values);
        if (step.reserve < circuit->header.headroom)
            return n;
        values[n] = (struct value){step.reserve, step.lowest, step.level, 0};
    }
    return circuit->count;
}

reply yardstick_least_level(const uint8_t *bytes, size_t bytes_len) {
    struct line lines[CIRCUIT_LINES];
    struct value values[CIRCUIT_LINES];
    struct file circuit = {.lines = lines};
    reply read = read_file(bytes, bytes_len, CIRCUIT, 1, &circuit);
    if (read.number)
        return read;
    uint32_t at = 0;
    for (int32_t level = 1; level <= TOP_LEVELS; level++) {
        circuit.header.top_level = level;
        at = first_short(&circuit, values);
        if (at == circuit.count)
            return success((uint32_t)level);
    }
    return refused(6, 1, at + 2);
}

/* Erasing and checking. */

/* A kept line with its operands renumbered: "the kept line that it was made from". */
static inline struct line renumbered(const struct line *line, const uint16_t *kept) {
    struct line erased = *line;
    if (line->word >= NEG)
        erased.first = kept[line->first];
    if (line->word == ADD || line->word == MUL)
        erased.second = kept[line->second];
    return erased;
}

reply yardstick_erase(const uint8_t *bytes, size_t bytes_len, uint8_t *out, size_t out_len) {
    struct line lines[SCHEDULE_LINES];
    uint16_t kept[SCHEDULE_LINES];
    uint8_t text[TEXT_BYTES];
    struct file schedule = {.lines = lines};
    reply read = read_file(bytes, bytes_len, SCHEDULE_TO_ERASE, 1, &schedule);
    if (read.number)
        return read;
    uint8_t *at = put_header(text, "circuit", &schedule.header);
    uint16_t next = 0;
    for (uint32_t n = 0; n < schedule.count; n++) {
        if (!is_circuit_word(lines[n].word)) {
            kept[n] = kept[lines[n].first];
            continue;
        }
        struct line erased = renumbered(&lines[n], kept);
        at = put_kept(at, &erased, erased.first, erased.second);
        kept[n] = next++;
    }
    return lend(text, at, out, out_len);
}

/* 12: "place of the first circuit line that differs, or one past the shorter file"; 0 where none does. */
static inline uint32_t first_difference(const struct file *circuit, const struct file *schedule) {
    if (memcmp(&circuit->header, &schedule->header, sizeof circuit->header))
        return 1;
    uint16_t kept[SCHEDULE_LINES];
    uint16_t next = 0;
    for (uint32_t n = 0; n < schedule->count; n++) {
        if (!is_circuit_word(schedule->lines[n].word)) {
            kept[n] = kept[schedule->lines[n].first];
            continue;
        }
        struct line erased = renumbered(&schedule->lines[n], kept);
        if (next == circuit->count || memcmp(&erased, &circuit->lines[next], sizeof erased))
            return next + 2u;
        kept[n] = next++;
    }
    return next == circuit->count ? 0 : next + 2u;
}

struct scaled {
    int32_t scale, level;
};

/* 7 or 8 for operands that do not meet, else 0 and what the line's value has by the rules of a line. */
static inline uint32_t apply_rule(const struct header *header, const struct line *line, const struct scaled *held, struct scaled *value) {
    const struct scaled *a = &held[line->first];
    int32_t number = line->second;
    switch (line->word) {
    case IN: *value = (struct scaled){header->waterline, header->top_level}; return 0;
    case ADD:
        *value = *a;
        return a->level != held[number].level ? 7 : a->scale != held[number].scale ? 8 : 0;
    case MUL:
        *value = (struct scaled){a->scale + held[number].scale, a->level};
        return a->level != held[number].level ? 7 : 0;
    case ENC: *value = (struct scaled){number, line->third}; return 0;
    case RS: *value = (struct scaled){a->scale - header->factor * number, a->level - number}; return 0;
    case MS: *value = (struct scaled){a->scale, a->level - number}; return 0;
    case US: *value = (struct scaled){a->scale + number, a->level}; return 0;
    default: *value = *a; return 0;
    }
}

/* "Each scale must satisfy scale + H ≤ F·level". */
static inline bool is_above_modulus(const struct header *header, int32_t scale, int32_t level) {
    return scale + header->headroom > header->factor * level;
}

/* "per line 7, 8, 10, 9", or 0. */
static inline uint32_t rule_fault(const struct header *header, const struct line *line, const struct scaled *held, struct scaled *value) {
    uint32_t fault = apply_rule(header, line, held, value);
    if (fault)
        return fault;
    return value->scale < header->waterline ? 10 : is_above_modulus(header, value->scale, value->level) ? 9 : 0;
}

static inline reply first_broken(const struct file *schedule, uint32_t number) {
    const struct header header = schedule->header;
    struct scaled held[SCHEDULE_LINES];
    for (uint32_t n = 0; n < schedule->count; n++) {
        if (schedule->lines[n].word == CONST)
            continue;
        struct scaled value;
        uint32_t fault = rule_fault(&header, &schedule->lines[n], held, &value);
        if (fault)
            return refused(fault, number, n + 2);
        held[n] = value;
    }
    return success(0);
}

reply yardstick_check(const uint8_t *circuit, size_t circuit_len, const uint8_t *schedule, size_t schedule_len) {
    struct line circuit_lines[CIRCUIT_LINES], schedule_lines[SCHEDULE_LINES];
    struct file first = {.lines = circuit_lines}, second = {.lines = schedule_lines};
    reply read = read_file(circuit, circuit_len, CIRCUIT, 1, &first);
    if (!read.number)
        read = read_file(schedule, schedule_len, SCHEDULE, 2, &second);
    if (read.number)
        return read;
    uint32_t differs = first_difference(&first, &second);
    return differs ? refused(12, 1, differs) : first_broken(&second, 2);
}

/* The rising-level dialect: document 02, Job 2. */

/* Any line of a schedule with these operands; `level` is what an enc has for its level. */
static inline uint8_t *put_line(uint8_t *at, const struct line *line, uint32_t a, uint32_t b, uint32_t level) {
    if (is_circuit_word(line->word))
        return put_kept(at, line, a, b);
    at = put_word(at, line->word);
    at = put_number(at, a);
    at = put_number(at, line->second);
    if (line->word == ENC)
        at = put_number(at, level);
    *at++ = '\n';
    return at;
}

reply yardstick_to_rising(const uint8_t *bytes, size_t bytes_len, uint8_t *out, size_t out_len) {
    struct line lines[SCHEDULE_LINES];
    uint8_t text[TEXT_BYTES];
    struct file schedule = {.lines = lines};
    reply read = read_file(bytes, bytes_len, SCHEDULE_TO_ERASE, 1, &schedule);
    if (!read.number)
        read = first_broken(&schedule, 1);
    if (read.number)
        return read;
    uint8_t *at = put_header(text, "rising", &schedule.header);
    for (uint32_t n = 0; n < schedule.count; n++)
        at = put_line(at, &lines[n], lines[n].first, lines[n].second, (uint32_t)schedule.header.top_level - lines[n].third);
    return lend(text, at, out, out_len);
}

/* "per line 7, 8, 10, 14, 9", or 0. A ds is legal where its two lines are: its rs lands on W, within the modulus. */
static inline uint32_t listing_fault(const struct header *header, const struct line *line, const struct scaled *held, struct scaled *value) {
    if (line->word != DS)
        return rule_fault(header, line, held, value);
    const struct scaled *a = &held[line->first];
    int32_t raised = header->waterline + header->factor;
    *value = (struct scaled){header->waterline, a->level - 1};
    return a->scale >= raised ? 14 : is_above_modulus(header, raised, a->level) ? 9 : 0;
}

/* The lines of a schedule for a line of a listing; what names it later names the last of them. `numbers` has the schedule's numbers. */
static inline uint32_t put_converted(struct draft *draft, const struct header *header, const struct line *line, const struct scaled *held,
                                     const uint16_t *numbers) {
    uint32_t a = line->word >= NEG ? numbers[line->first] : 0;
    uint32_t b = line->word == ADD || line->word == MUL ? numbers[line->second] : 0;
    if (line->word == DS)
        return put_struck(draft, RS, put_struck(draft, US, a, header->waterline + header->factor - held[line->first].scale), 1);
    draft->at = put_line(draft->at, line, a, b, line->third);
    return draft->next++;
}

/* One walk holds the lines to the rules and writes them as long as they fit: 3 comes after every rule. */
reply yardstick_from_rising(const uint8_t *bytes, size_t bytes_len, uint8_t *out, size_t out_len) {
    struct line lines[SCHEDULE_LINES];
    struct scaled held[SCHEDULE_LINES];
    uint16_t numbers[SCHEDULE_LINES];
    uint8_t text[TEXT_BYTES];
    struct file listing = {.lines = lines};
    reply read = read_file(bytes, bytes_len, LISTING, 1, &listing);
    if (read.number)
        return read;
    struct draft draft = {put_header(text, "schedule", &listing.header), 0};
    uint32_t too_many = 0;
    for (uint32_t n = 0; n < listing.count; n++) {
        const struct line *line = &lines[n];
        uint32_t fault = line->word == CONST ? 0 : listing_fault(&listing.header, line, held, &held[n]);
        if (fault)
            return refused(fault, 1, n + 2);
        if (!too_many && draft.next + (line->word == DS) >= SCHEDULE_LINES)
            too_many = n + 2;
        if (!too_many)
            numbers[n] = (uint16_t)put_converted(&draft, &listing.header, line, held, numbers);
    }
    return too_many ? refused(3, 1, too_many) : lend(text, draft.at, out, out_len);
}

/* Live ciphertexts: document 02, Job 7. */

/* Reads a schedule and keeps for each value "the last line that names it", its own where none does. */
static inline reply read_entries(const uint8_t *bytes, size_t bytes_len, struct file *schedule, uint16_t *entries) {
    reply read = read_file(bytes, bytes_len, SCHEDULE, 1, schedule);
    if (read.number)
        return read;
    for (uint32_t n = 0; n < schedule->count; n++) {
        const struct line *line = &schedule->lines[n];
        entries[n] = (uint16_t)n;
        if (line->word >= NEG)
            entries[line->first] = (uint16_t)n;
        if (line->word == ADD || line->word == MUL)
            entries[line->second] = (uint16_t)n;
    }
    return read;
}

/* 1 for a ciphertext that this line is the last to name, else 0. */
static inline uint32_t ends_at(const struct file *schedule, const uint16_t *entries, uint32_t value, uint32_t n) {
    return entries[value] == n && schedule->lines[value].kind == CIPHERTEXT;
}

/* The live count after line n from the one before it. A line that names a value twice ends it once. */
static inline uint32_t next_count(const struct file *schedule, const uint16_t *entries, uint32_t n, uint32_t live) {
    const struct line *line = &schedule->lines[n];
    live += line->kind == CIPHERTEXT && entries[n] > n;
    if (line->word >= NEG)
        live -= ends_at(schedule, entries, line->first, n);
    if ((line->word == ADD || line->word == MUL) && line->second != line->first)
        live -= ends_at(schedule, entries, line->second, n);
    return live;
}

reply yardstick_may_drop(const uint8_t *bytes, size_t bytes_len, uint32_t value, uint32_t line) {
    struct line lines[SCHEDULE_LINES];
    uint16_t entries[SCHEDULE_LINES];
    struct file schedule = {.lines = lines};
    reply read = read_entries(bytes, bytes_len, &schedule, entries);
    if (read.number)
        return read;
    if (value >= schedule.count || line >= schedule.count)
        return refused(4, 0, 0);
    return success(entries[value] <= line);
}

reply yardstick_live_after(const uint8_t *bytes, size_t bytes_len, uint32_t line) {
    struct line lines[SCHEDULE_LINES];
    uint16_t entries[SCHEDULE_LINES];
    struct file schedule = {.lines = lines};
    reply read = read_entries(bytes, bytes_len, &schedule, entries);
    if (read.number)
        return read;
    if (line >= schedule.count)
        return refused(4, 0, 0);
    uint32_t live = 0;
    for (uint32_t n = 0; n <= line; n++)
        live = next_count(&schedule, entries, n, live);
    return success(live);
}

reply yardstick_live_peak(const uint8_t *bytes, size_t bytes_len) {
    struct line lines[SCHEDULE_LINES];
    uint16_t entries[SCHEDULE_LINES];
    struct file schedule = {.lines = lines};
    reply read = read_entries(bytes, bytes_len, &schedule, entries);
    if (read.number)
        return read;
    uint32_t live = 0, peak = 0;
    for (uint32_t n = 0; n < schedule.count; n++) {
        live = next_count(&schedule, entries, n, live);
        peak = live > peak ? live : peak;
    }
    return success(peak);
}

/* Nothing is refused once the room is known to be enough: the bytes go to the caller at once. */
reply yardstick_live(const uint8_t *bytes, size_t bytes_len, uint8_t *out, size_t out_len) {
    struct line lines[SCHEDULE_LINES];
    uint16_t entries[SCHEDULE_LINES];
    struct file schedule = {.lines = lines};
    reply read = read_entries(bytes, bytes_len, &schedule, entries);
    if (read.number)
        return read;
    uint32_t live = 0, length = GOWASHIRU_LIVE_VALUE_BYTES * schedule.count;
    if (length > out_len)
        return refused(13, 0, 0);
    for (uint32_t n = 0; n < schedule.count; n++, out += GOWASHIRU_LIVE_VALUE_BYTES) {
        live = next_count(&schedule, entries, n, live);
        out[0] = (uint8_t)entries[n];
        out[1] = (uint8_t)(entries[n] >> 8);
        out[2] = (uint8_t)live;
        out[3] = (uint8_t)(live >> 8);
    }
    return success(length);
}
