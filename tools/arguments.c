#include "arguments.h"

#include "lines.h"

#include <stdio.h>
#include <string.h>

/* Where a number is due, a minus before a digit is a wrong number and no option. */
static bool is_option(const struct arguments *arguments, const struct wanted *wanted, const char *word) {
    bool is_number_due = wanted->number_count > 0 && arguments->count >= wanted->most;
    return word[0] == '-' && word[1] != 0 && !(is_number_due && word[1] >= '0' && word[1] <= '9');
}

static bool fail(const char *what, const char *word) {
    fprintf(stderr, "gowashiru: %s%s\n", what, word);
    return false;
}

/* Takes one option, and the word after it where it needs one. */
static bool read_option(struct arguments *arguments, char ***words) {
    const char *word = **words;
    if (strcmp(word, "--help") == 0 || strcmp(word, "-h") == 0) {
        arguments->wants_help = true;
        return true;
    }
    if (strcmp(word, "-o") != 0)
        return fail("no such option: ", word);
    if (arguments->output != NULL)
        return fail("-o is given twice", "");
    if ((*words)[1] == NULL)
        return fail("-o needs the name of a file", "");
    arguments->output = *++*words;
    return true;
}

/* Written as in the files: no sign, no leading zero. */
static bool read_number(uint32_t *number, const char *name, const char *word) {
    struct piece piece = {.bytes = (const uint8_t *)word, .length = strlen(word), .is_there = true};
    int64_t read;
    if (!number_of(piece, false, &read) || read > UINT32_MAX) {
        fprintf(stderr, "gowashiru: %s is a number from 0 to 4294967295, without sign or leading zeros, and this is none: '%s'\n", name, word);
        return false;
    }
    *number = (uint32_t)read;
    return true;
}

/* Files come first, then numbers. */
static bool take_word(struct arguments *arguments, const struct wanted *wanted, const char *word) {
    size_t at = arguments->count++;
    if (at < wanted->most) {
        arguments->names[at] = word;
        return true;
    }
    at -= wanted->most;
    if (at < wanted->number_count)
        return read_number(&arguments->numbers[at], wanted->number_names[at], word);
    return fail(wanted->number_count > 0 ? "one word too many: " : "one file too many: ", word);
}

bool read_arguments(struct arguments *arguments, const struct wanted *wanted, char **words) {
    bool only_words = false;
    *arguments = (struct arguments){.count = 0};
    for (; *words != NULL; words++) {
        if (!only_words && strcmp(*words, "--") == 0)
            only_words = true;
        else if (!only_words && is_option(arguments, wanted, *words)) {
            if (!read_option(arguments, &words))
                return false;
        } else if (!take_word(arguments, wanted, *words))
            return false;
    }
    return true;
}
