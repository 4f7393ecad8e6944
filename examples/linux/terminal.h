/* What a console puts out: to a file, to the screen, and a script that answers prompts. */
#ifndef TERMINAL_H
#define TERMINAL_H

#include <stdbool.h>
#include <stddef.h>
#include <stdint.h>
#include <stdio.h>

enum terminal_screen { TERMINAL_HIDDEN, TERMINAL_LINES, TERMINAL_BYTES };

enum { TERMINAL_TYPED = 4096, TERMINAL_LINE = 256 };

struct terminal {
    unsigned number; /* of the guest, which stands before each of its lines */
    uint16_t cols, rows;
    enum terminal_screen screen;
    FILE *log;          /* all that was put out */
    const char *script; /* the lines that are still to be typed, one at each prompt */
    unsigned prompts;   /* how many there were */
    char last[3];       /* the last bytes that were put out */
    size_t line_len;    /* of the line on the screen that isn't at its end */
    char line[TERMINAL_LINE];
    size_t typed_len;   /* what was typed and isn't taken yet */
    uint8_t typed[TERMINAL_TYPED];
};

void terminal_show(struct terminal *terminal, const uint8_t *bytes, size_t len);

/* Types bytes, as many as there is room for. */
void terminal_type(struct terminal *terminal, const uint8_t *bytes, size_t len);

/* Goes on as another terminal did, with the lines of this script, on this one's screen and log. */
void terminal_resume(struct terminal *terminal, const struct terminal *other, const char *script);

/* The console took so many. */
void terminal_took(struct terminal *terminal, size_t len);

#endif
