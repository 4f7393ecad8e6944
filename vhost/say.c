/* say: each sentence is one line and one write, so that those of several threads don't mix. */
#include "say.h"

#include <stdarg.h>
#include <stdio.h>
#include <string.h>
#include <unistd.h>

void say(const char *about, const char *format, ...)
{
    char line[1024];
    enum { MOST = sizeof line - 2 };
    va_list words;
    int len = snprintf(line, MOST, "kalyubos-vhost: %s%s", about != NULL ? about : "", about != NULL ? ": " : "");
    size_t at = len < MOST ? (size_t)len : MOST;
    va_start(words, format);
    vsnprintf(line + at, sizeof line - 1 - at, format, words);
    va_end(words);
    at = strlen(line);
    line[at] = '\n';
    (void)!write(STDERR_FILENO, line, at + 1);
}
