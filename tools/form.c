#include "form.h"

#include "../include/gowashiru.h"
#include "show.h"

#include <stdio.h>
#include <string.h>

/* No line of the form is longer: `schedule` and four numbers of 11 bytes. */
enum { LINE_BYTES = 56 };

/* Numbers of a header without its headroom, and with it. */
enum { LEAST_HEADER = 3, MOST_HEADER = 4 };

static const char *const header_forms[] = {[CIRCUIT] = "circuit F W L", [SCHEDULE] = "schedule F W L", [LISTING] = "rising F W L"};

/* What makes the wanted kind of file, which comes first here, of another. */
static const char *const ways[][3] = {
    [CIRCUIT] = {[SCHEDULE] = "`gowashiru erase` makes one of it. Of two files the circuit comes first.",
                 [LISTING] = "`gowashiru from-rising` makes a schedule of it, and `gowashiru erase` a circuit of that."},
    [SCHEDULE] = {[CIRCUIT] = "`gowashiru plan` makes one of it. Of two files the circuit comes first.",
                  [LISTING] = "`gowashiru from-rising` makes one of it."},
    [LISTING] = {[CIRCUIT] = "`gowashiru plan` makes a schedule of it, and `gowashiru to-rising` a listing of that.",
                 [SCHEDULE] = "`gowashiru to-rising` makes one of it."},
};

/* The kind of file whose header begins with this word. */
static bool kind_of_header(struct piece word, enum file_kind *kind) {
    for (*kind = CIRCUIT; *kind <= LISTING; ++*kind)
        if (is_text(word, header_words[*kind]))
            return true;
    return false;
}

static bool begins_with(const struct file *file, const char *bytes, size_t length) {
    return file->length >= length && memcmp(file->bytes, bytes, length) == 0;
}

static bool tell_mark(const struct file *file, uint32_t place) {
    if (place != 1)
        return false;
    if (begins_with(file, "\xEF\xBB\xBF", 3))
        fputs("  The file begins with a byte order mark: save it as UTF-8 without one.\n", stderr);
    else if (begins_with(file, "\xFF\xFE", 2) || begins_with(file, "\xFE\xFF", 2))
        fputs("  The file is UTF-16 and begins with a byte order mark: save it as UTF-8 without one.\n", stderr);
    else
        return false;
    return true;
}

static bool tell_nul(const struct file *file, struct piece line) {
    if (!has_byte(line, 0))
        return false;
    bool is_last = file->ended && !line.is_closed && line.bytes[line.length - 1] == 0;
    if (is_last)
        fputs("  The file ends in a NUL byte, which is no part of the text: leave out the byte that ends a C string.\n", stderr);
    else
        fputs("  A NUL byte stands in the line: take it out.\n", stderr);
    return true;
}

static bool tell_return(struct piece line) {
    if (!has_byte(line, '\r'))
        return false;
    fputs("  A carriage return stands in the line. Lines end in a line feed alone: save the file with Unix line ends,\n"
          "  or remove each carriage return with tr -d '\\r'.\n", stderr);
    return true;
}

static bool tell_space(struct piece line) {
    if (!has_byte(line, ' '))
        return false;
    fputs("  A space stands in the line. Fields are parted by one tab, and nothing else stands between them: tr ' ' '\\t' makes a tab\n"
          "  of each space.\n", stderr);
    return true;
}

/* Where only the front of the input was read, it is not known whether a line feed follows. */
static bool tell_length(const struct file *file, struct piece line) {
    if (line.is_closed)
        return false;
    if (file->ended)
        fputs("  The last line is not closed: end the file with a line feed.\n", stderr);
    else
        fprintf(stderr, "  The line is longer than any that is of the form (%d bytes).\n", LINE_BYTES);
    return true;
}

/* A number but for its length: digits alone, more than a field has. */
static bool is_too_long(struct piece field) {
    size_t digits = 0;
    while (digits < field.length && field.bytes[digits] >= '0' && field.bytes[digits] <= '9')
        digits++;
    return digits == field.length && digits > FIELD_BYTES && field.bytes[0] != '0';
}

static void tell_number(struct piece field) {
    fputs("  ", stderr);
    if (field.length == 0) {
        fputs("A field is empty: one tab parts two fields, and none stands at the end.\n", stderr);
        return;
    }
    show_bytes(field);
    if (is_too_long(field)) {
        fprintf(stderr, " is no number: it has %zu digits, and a number field has at most %d bytes.\n", field.length, FIELD_BYTES);
        return;
    }
    fputs(" is no number: digits, at most 11 bytes, no point, no leading zero, no plus, and a minus only before the T of rot, not before 0.\n", stderr);
}

/* Tells the first field that is no number; false where each of them is one, of so many at most. */
static bool tell_wrong_field(struct piece line, size_t most, bool has_rotation) {
    int64_t number;
    for (size_t i = 1; i < field_count(line); i++) {
        struct piece field = field_at(line, i);
        if (field.length == 0 || (i <= most && !number_of(field, has_rotation && i == 2, &number))) {
            tell_number(field);
            return true;
        }
    }
    return false;
}

static void tell_found(struct piece line) {
    fprintf(stderr, ", and here %s %zu.\n", field_count(line) == 2 ? "is" : "are", field_count(line) - 1);
}

/* Each field, then how many there are. */
static void tell_fields(struct piece line, const struct word *word) {
    if (tell_wrong_field(line, word->count, word->count == 2 && word->fields[1] == ROTATION))
        return;
    fprintf(stderr, "  `%s` has %zu number%s after the word", word->form, word->count, word->count == 1 ? "" : "s");
    tell_found(line);
}

static void tell_header_fields(struct piece line, const char *form) {
    if (tell_wrong_field(line, MOST_HEADER, false))
        return;
    fprintf(stderr, "  `%s` has %d numbers after the word, or %d with the headroom H", form, LEAST_HEADER, MOST_HEADER);
    tell_found(line);
}

static void tell_header(const struct file *file, struct piece line) {
    enum file_kind kind;
    if (!kind_of_header(field_at(line, 0), &kind))
        fprintf(stderr, "  The first line is the header, `%s`: the rescale factor, the waterline and the top level; the headroom H may follow.\n",
                header_forms[file->kind]);
    else if (kind == file->kind)
        tell_header_fields(line, header_forms[kind]);
    else
        fprintf(stderr, "  This is a %s, and a %s is wanted here: %s\n", kind_names[kind], kind_names[file->kind], ways[file->kind][kind]);
}

static void tell_words(const struct file *file, struct piece field) {
    fputs("  ", stderr);
    show_bytes(field);
    fprintf(stderr, " is no word of a %s. Its words are", kind_names[file->kind]);
    const char *mark = " ";
    for (size_t i = 0; i < word_count; i++) {
        if (known_words[i].first > file->kind)
            continue;
        fprintf(stderr, "%s%s", mark, known_words[i].name);
        mark = ", ";
    }
    fputs(".\n", stderr);
}

static void tell_record(const struct file *file, struct piece line) {
    enum file_kind kind;
    const struct word *word = word_of(field_at(line, 0));
    if (line.length == 0)
        fputs("  The line is empty: take it out.\n", stderr);
    else if (kind_of_header(field_at(line, 0), &kind))
        fputs("  A header stands in the first line alone: one file holds one circuit, schedule or listing.\n", stderr);
    else if (word == NULL)
        tell_words(file, field_at(line, 0));
    else if (file->kind == CIRCUIT && !is_kept(word))
        fprintf(stderr, "  `%s` stands in no circuit, which has no scales and levels: planning puts them in.\n", word->form);
    else if (word->first > file->kind)
        fprintf(stderr, "  `%s` stands in listings in the rising-level dialect alone. In a schedule it is `us`, up to W + F, and `rs` by 1.\n",
                word->form);
    else
        tell_fields(line, word);
    if (word != NULL && word->count == 1 && word->fields[0] == CONSTANT && field_count(line) == 2)
        fprintf(stderr, "  K is the number under which the host keeps the constant, 0 to %u, and not its value.\n", GOWASHIRU_MOST_CONSTANT);
}

/* Bytes that stand in no file of the form, each told. */
static bool tell_bytes(const struct file *file, struct piece line) {
    bool told = tell_nul(file, line);
    told = tell_return(line) || told;
    told = tell_space(line) || told;
    bool is_only_nul = line.length == 1 && line.bytes[0] == 0; /* without it no line is left to be closed */
    return (!is_only_nul && tell_length(file, line)) || told;
}

void tell_form(const struct file *file, uint32_t place) {
    struct piece line = line_at(file, place);
    if (!line.is_there)
        fprintf(stderr, "  The file is empty. Its first line is the header, `%s`.\n", header_forms[file->kind]);
    else if (line.length > 0 && line.bytes[0] == '#')
        fputs("  There are no comments: take the line out.\n", stderr);
    else if (tell_mark(file, place) || tell_bytes(file, line))
        return;
    else if (line.length > 0 && line.bytes[0] == '\t')
        fputs("  The line begins with a tab: take it out.\n", stderr);
    else if (place == 1)
        tell_header(file, line);
    else
        tell_record(file, line);
}
