/* Lines, fields and words of a file. What is read here has passed the library up to the line in question; nothing is judged. */
#ifndef LINES_H
#define LINES_H

#include "files.h"

/* Bytes of a file: a line without its line feed, or a field of it. */
struct piece {
    const uint8_t *bytes;
    size_t length;
    bool is_there; /* false past the end of the file or the line */
    bool is_closed; /* a line feed follows */
};

enum field { OPERAND, CONSTANT, ROTATION, SCALE, LEVEL, COUNT };

enum { FIELD_BYTES = 11, MOST_FIELDS = 3, SCHEDULE_LINES = 1792, CIRCUIT_LINES = 256 };

struct word {
    const char *name;
    const char *form;     /* the word with its fields by name */
    enum file_kind first; /* the first kind of file that has it; those after it have it too */
    size_t count;
    enum field fields[MOST_FIELDS];
};

/* A line of the form. */
struct record {
    const struct word *word;
    int64_t numbers[MOST_FIELDS];
};

struct header {
    int64_t factor, waterline, top_level;
    bool has_headroom;
    int64_t headroom; /* 0 where none is given */
    bool is_rising;   /* of a listing, where levels count up from 0 */
};

extern const struct word known_words[];
extern const size_t word_count;

/* A word of circuits: erasing keeps its line. */
bool is_kept(const struct word *word);

/* The line at *at, which is moved past it. */
struct piece next_line(const struct file *file, size_t *at);
/* The line of this place, counted from 1. */
struct piece line_at(const struct file *file, uint32_t place);

size_t field_count(struct piece line);
/* The field of this number; 0 is the word. */
struct piece field_at(struct piece line, size_t number);

bool is_text(struct piece piece, const char *text);
bool has_byte(struct piece piece, uint8_t byte);

/* NULL where it is no word of any file. */
const struct word *word_of(struct piece field);

/* A number as all files write it: at most FIELD_BYTES, no plus, no leading zero, a minus only where it may stand and not before 0. */
bool number_of(struct piece field, bool may_be_negative, int64_t *number);

/* False where the line is not of the form. */
bool record_of(struct piece line, struct record *record);
bool header_of(const struct file *file, struct header *header);

/* The remaining level of a written one, and the written level of a remaining one. */
int64_t turned_level(const struct header *header, int64_t level);

#endif
