/* Files read, and results written whole or not at all. What fails is said on standard error. */
#ifndef FILES_H
#define FILES_H

#include <stdbool.h>
#include <stddef.h>
#include <stdint.h>

/* A good circuit has at most 4,372 bytes, a good schedule at most 30,485 and a good listing at most 30,483, and no line of any form more
 * than 57. So a longer input is refused by what is read here, at the same line and for the same reason, and an endless input ends. */
enum { READ_BYTES = 65536 };

enum file_kind { CIRCUIT, SCHEDULE, LISTING };

/* As a kind is called, and the first word of its header. */
extern const char *const kind_names[];
extern const char *const header_words[];

struct file {
    const char *name; /* as it is shown */
    enum file_kind kind;
    bool ended; /* the end of the input was reached, so what is read is all of it */
    size_t length;
    uint8_t bytes[READ_BYTES];
};

/* A closed standard input, output or error is noted and its number taken, so that no file that is opened later gets it. */
bool hold_standard_files(void);

/* Reads the file of this name, or standard input where it is "-" or NULL. */
bool read_file(struct file *file, const char *name);

/* Writes the bytes to the file of this name, or to standard output where it is "-" or NULL. */
bool write_result(const char *name, const void *bytes, size_t length);

#endif
