/* The words that the command is called with. */
#ifndef ARGUMENTS_H
#define ARGUMENTS_H

#include <stdbool.h>
#include <stddef.h>
#include <stdint.h>

/* The exit status. */
enum status { DONE = 0, REFUSED = 1, FAILED = 2 };

enum { MOST_NAMES = 2, MOST_NUMBERS = 2 };

/* What a command takes beside options: files, and after them numbers, all of which have to be given. */
struct wanted {
    size_t least, most; /* files that can be named */
    size_t number_count;
    const char *number_names[MOST_NUMBERS];
    const char *needs; /* in words, where something has to be given */
};

struct arguments {
    const char *names[MOST_NAMES]; /* of the files; NULL is standard input */
    uint32_t numbers[MOST_NUMBERS];
    size_t count; /* of files and numbers */
    const char *output; /* NULL is standard output */
    bool wants_help;
};

/* The words after the command's name. Says on standard error what is wrong. */
bool read_arguments(struct arguments *arguments, const struct wanted *wanted, char **words);

#endif
