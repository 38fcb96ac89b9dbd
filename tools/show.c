#include "show.h"

#include <stdio.h>

/* Longer than any line of the form, so that only what is wrong is cut. */
enum { SHOWN_BYTES = 60 };

static void show_byte(uint8_t byte) {
    if (byte == '\t')
        fputs("\\t", stderr);
    else if (byte == '\r')
        fputs("\\r", stderr);
    else if (byte >= ' ' && byte <= '~')
        fputc(byte, stderr);
    else
        fprintf(stderr, "\\x%02X", (unsigned)byte);
}

static void show(struct piece piece, bool tab_is_space) {
    for (size_t at = 0; at < piece.length && at < SHOWN_BYTES; at++)
        show_byte(tab_is_space && piece.bytes[at] == '\t' ? ' ' : piece.bytes[at]);
    if (piece.length > SHOWN_BYTES)
        fputs("...", stderr);
}

void show_line(struct piece line) {
    show(line, true);
}

void show_bytes(struct piece piece) {
    show(piece, false);
}
