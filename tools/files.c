#define _XOPEN_SOURCE 700
#include "files.h"

#include <errno.h>
#include <fcntl.h>
#include <signal.h>
#include <stdio.h>
#include <stdlib.h>
#include <string.h>
#include <sys/stat.h>
#include <unistd.h>

const char *const kind_names[] = {[CIRCUIT] = "circuit", [SCHEDULE] = "schedule", [LISTING] = "listing"};
const char *const header_words[] = {[CIRCUIT] = "circuit", [SCHEDULE] = "schedule", [LISTING] = "rising"};

static bool was_closed[3];

bool hold_standard_files(void) {
    signal(SIGPIPE, SIG_IGN); /* a closed pipe is told by write, */
    signal(SIGXFSZ, SIG_IGN); /* and so is a file that would get too large */
    for (int number = 0; number < 3; number++) {
        if (fcntl(number, F_GETFD) != -1)
            continue;
        was_closed[number] = true;
        if (open("/dev/null", O_RDWR) != number)
            return false;
    }
    return true;
}

static bool fail(const char *name, const char *what) {
    fprintf(stderr, "gowashiru: %s: %s\n", name, what);
    return false;
}

static bool is_standard(const char *name) {
    return name == NULL || strcmp(name, "-") == 0;
}

static bool read_all(struct file *file, int from) {
    file->length = 0;
    file->ended = false;
    while (file->length < sizeof file->bytes && !file->ended) {
        ssize_t got = read(from, file->bytes + file->length, sizeof file->bytes - file->length);
        if (got < 0 && errno == EINTR)
            continue;
        if (got < 0)
            return fail(file->name, strerror(errno));
        file->ended = got == 0;
        file->length += (size_t)got;
    }
    return true;
}

bool read_file(struct file *file, const char *name) {
    file->name = is_standard(name) ? "standard input" : name;
    if (is_standard(name)) {
        if (was_closed[STDIN_FILENO])
            return fail(file->name, "it is closed");
        if (isatty(STDIN_FILENO))
            fprintf(stderr, "gowashiru: reading a %s from the terminal; end it with Ctrl-D\n", kind_names[file->kind]);
        return read_all(file, STDIN_FILENO);
    }
    int from = open(name, O_RDONLY | O_CLOEXEC);
    if (from < 0)
        return fail(name, strerror(errno));
    bool done = read_all(file, from);
    close(from);
    return done;
}

static bool write_all(int to, const uint8_t *bytes, size_t length) {
    while (length > 0) {
        ssize_t put = write(to, bytes, length);
        if (put < 0 && errno == EINTR)
            continue;
        if (put < 0)
            return false;
        bytes += put;
        length -= (size_t)put;
    }
    return true;
}

static bool write_standard(const uint8_t *bytes, size_t length) {
    if (was_closed[STDOUT_FILENO])
        return fail("standard output", "it is closed");
    if (!write_all(STDOUT_FILENO, bytes, length) || close(STDOUT_FILENO) != 0)
        return fail("standard output", strerror(errno));
    return true;
}

/* A device or a pipe is written to; it cannot be put in place whole. */
static bool write_directly(const char *name, const uint8_t *bytes, size_t length) {
    int to = open(name, O_WRONLY | O_CLOEXEC);
    if (to < 0)
        return fail(name, strerror(errno));
    bool written = write_all(to, bytes, length);
    int reason = errno;
    if (close(to) != 0 && written) {
        written = false;
        reason = errno;
    }
    return written || fail(name, strerror(reason));
}

/* What a new file may be used for, by the process's mask. */
static mode_t new_mode(void) {
    mode_t mask = umask(0);
    umask(mask);
    return 0666 & ~mask;
}

/* Written, with its mode, and safe on the disk before it gets the name. */
static bool fill(int to, mode_t mode, const uint8_t *bytes, size_t length) {
    bool filled = write_all(to, bytes, length) && fchmod(to, mode) == 0 && fsync(to) == 0;
    int reason = errno;
    if (close(to) != 0 && filled)
        return false;
    errno = reason;
    return filled;
}

/* `other` is the name of a file beside it, with six letters to be chosen. */
static bool put_in_place(const char *name, char *other, mode_t mode, const uint8_t *bytes, size_t length) {
    int to = mkstemp(other);
    bool made = to >= 0;
    bool done = made && fill(to, mode, bytes, length) && rename(other, name) == 0;
    int reason = errno;
    if (made && !done)
        unlink(other);
    errno = reason;
    return done;
}

/* A signal waits meanwhile, so that no file is left behind. */
static bool replace(const char *name, mode_t mode, const uint8_t *bytes, size_t length) {
    sigset_t all, before;
    char *other = malloc(strlen(name) + sizeof ".XXXXXX");
    if (other == NULL)
        return fail(name, strerror(errno));
    strcat(strcpy(other, name), ".XXXXXX");
    sigfillset(&all);
    sigprocmask(SIG_BLOCK, &all, &before);
    bool done = put_in_place(name, other, mode, bytes, length) || fail(name, strerror(errno));
    sigprocmask(SIG_SETMASK, &before, NULL);
    free(other);
    return done;
}

bool write_result(const char *name, const void *bytes, size_t length) {
    if (is_standard(name) || strcmp(name, "/dev/stdout") == 0)
        return write_standard(bytes, length);
    struct stat is;
    if (stat(name, &is) != 0 && errno == ENOENT && lstat(name, &is) == 0)
        return fail(name, "it is a link to a file that is not there");
    if (stat(name, &is) != 0)
        return errno == ENOENT ? replace(name, new_mode(), bytes, length) : fail(name, strerror(errno));
    if (S_ISDIR(is.st_mode))
        return fail(name, strerror(EISDIR));
    if (!S_ISREG(is.st_mode))
        return write_directly(name, bytes, length);
    char *real = realpath(name, NULL); /* a link stays one */
    if (real == NULL)
        return fail(name, strerror(errno));
    bool done = replace(real, is.st_mode & 07777, bytes, length);
    free(real);
    return done;
}
