/* The terminal of terminal.h. */
#include "terminal.h"

#include <string.h>

/* Whole lines, so that those of several guests may stand on one screen. */
static void show_line(struct terminal *terminal, char byte)
{
    if (byte != '\r' && byte != '\n')
        terminal->line[terminal->line_len++] = byte;
    if (byte == '\n' || terminal->line_len == TERMINAL_LINE) {
        printf("%2u| %.*s\n", terminal->number, (int)terminal->line_len, terminal->line);
        terminal->line_len = 0;
    }
}

/* Types the script's next line. */
static void answer(struct terminal *terminal)
{
    size_t len = strcspn(terminal->script, "\n");
    if (len == 0)
        return;
    terminal_type(terminal, (const uint8_t *)terminal->script, len);
    terminal_type(terminal, (const uint8_t *)"\n", 1);
    terminal->script += len + (terminal->script[len] == '\n');
}

/* Whether a byte ends a prompt. */
static bool is_prompt(struct terminal *terminal, char byte)
{
    memmove(terminal->last, terminal->last + 1, 2);
    terminal->last[2] = byte;
    return memcmp(terminal->last, "\n> ", 3) == 0;
}

void terminal_show(struct terminal *terminal, const uint8_t *bytes, size_t len)
{
    fwrite(bytes, 1, len, terminal->log);
    if (terminal->screen == TERMINAL_BYTES)
        fwrite(bytes, 1, len, stdout);
    for (size_t i = 0; i < len; i++) {
        if (terminal->screen == TERMINAL_LINES)
            show_line(terminal, bytes[i]);
        if (is_prompt(terminal, bytes[i])) {
            terminal->prompts++;
            answer(terminal);
        }
    }
}

void terminal_type(struct terminal *terminal, const uint8_t *bytes, size_t len)
{
    size_t room = TERMINAL_TYPED - terminal->typed_len, taken = len < room ? len : room;
    memcpy(terminal->typed + terminal->typed_len, bytes, taken);
    terminal->typed_len += taken;
}

void terminal_took(struct terminal *terminal, size_t len)
{
    terminal->typed_len -= len;
    memmove(terminal->typed, terminal->typed + len, terminal->typed_len);
}

void terminal_resume(struct terminal *terminal, const struct terminal *other, const char *script)
{
    struct terminal ours = *terminal;
    *terminal = *other;
    terminal->number = ours.number;
    terminal->screen = ours.screen;
    terminal->log = ours.log;
    terminal->script = script;
}
