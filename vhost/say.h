/* say: sentences for people, on stderr. */
#ifndef SAY_H
#define SAY_H

/* Says a sentence about something that has a name, as the path of a socket; or, where that is NULL, about the program. */
__attribute__((format(printf, 2, 3))) void say(const char *about, const char *format, ...);

#endif
