/* A driver's mistake in words. */
#ifndef MISTAKE_H
#define MISTAKE_H

#include <stdarg.h>
#include <stdio.h>

#include "watch.h"

/* Writes a line: the trace's line, where it isn't 0, the call as it is spelled there and in words, and what is wrong. */
void tell_mistake(FILE *told, size_t line, const struct watch_call *call, const char *what, va_list values);

#endif
