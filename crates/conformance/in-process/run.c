/*
 * Replays a trace on the device that is linked to it: `DEVICE TRACE IMAGE [--save FILE] [--fails NUMBERS]`, or without words
 * what stands on standard input, over eight sectors of zeros. The records go to standard output; FILE gets the image
 * afterwards. The device is handed the NUMBERS, as 0,3, of the image's calls that fail. The status is 0, or 1 where the
 * device refuses its guests, 77 where the text isn't a trace (vreplay tells why), 2 and 3 where the words or a file are
 * bad.
 */
#include <stdio.h>
#include <stdlib.h>
#include <string.h>

#include "trace.h"

enum { MOST_FAILS = 4096, EIGHT_SECTORS = 8 * 512 };

/* A file's bytes, or the end of the program. */
static char *content_of(const char *path, size_t *len)
{
    FILE *file = fopen(path, "rb");
    size_t room = 1 << 16;
    char *bytes = malloc(room);
    *len = 0;
    while (file && bytes) {
        *len += fread(bytes + *len, 1, room - *len, file);
        if (*len < room) {
            fclose(file);
            return bytes;
        }
        room *= 2;
        bytes = realloc(bytes, room);
    }
    perror(path);
    exit(3);
}

static void save(const char *path, const uint8_t *image, size_t len)
{
    FILE *file = fopen(path, "wb");
    if (!file || fwrite(image, 1, len, file) != len || fclose(file)) {
        perror(path);
        exit(3);
    }
}

/* Replays the events of a trace whose device is made; false where a line is no event. */
static bool replay(struct trace *trace)
{
    struct text record = {0};
    struct event event;
    while (trace->events < trace->end) {
        if (!read_event(trace, &event) || !can_be_asked(&device, trace, &event))
            return false;
        record.len = 0;
        replay_event(&device, trace, &event, &record);
        fwrite(record.at, 1, record.len, stdout);
        free(event.bytes);
    }
    free(record.at);
    return true;
}

/* The value of an option behind TRACE and IMAGE, or NULL. */
static const char *option(int argc, char **argv, const char *name)
{
    for (int i = 3; i + 1 < argc; i += 2)
        if (!strcmp(argv[i], name))
            return argv[i + 1];
    return NULL;
}

/* Whether the words are those of the usage. */
static bool are_good(int argc, char **argv)
{
    int known = (option(argc, argv, "--save") != NULL) + (option(argc, argv, "--fails") != NULL);
    return argc == 3 + 2 * known;
}

/* The numbers between the commas of a text. */
static size_t numbers_of(const char *text, uint64_t *numbers)
{
    size_t count = 0;
    for (char *end; text && *text && count < MOST_FAILS; text = *end ? end + 1 : end)
        numbers[count++] = strtoull(text, &end, 10);
    return count;
}

int main(int argc, char **argv)
{
    static uint64_t fails[MOST_FAILS];
    if (argc != 1 && (argc < 3 || !are_good(argc, argv))) {
        fprintf(stderr, "usage: %s TRACE IMAGE [--save FILE] [--fails NUMBERS]\n", argv[0]);
        return 2;
    }
    const char *saved = option(argc, argv, "--save");
    size_t text_len, image_len = EIGHT_SECTORS, fails_len = numbers_of(option(argc, argv, "--fails"), fails);
    char *text = content_of(argc == 1 ? "/dev/stdin" : argv[1], &text_len);
    uint8_t *image = argc == 1 ? calloc(1, EIGHT_SECTORS) : (uint8_t *)content_of(argv[2], &image_len);
    struct trace trace;
    if (!read_setup(text, text_len, &trace)) {
        fputs("the text isn't a trace, or has more guests than its version may have\n", stderr);
        return 77;
    }
    const char *lack = why_no_disks(&device, &trace);
    if (lack) {
        fprintf(stderr, "%s\n", lack);
        return 77;
    }
    struct setup setup = {trace.guests, trace.guests_len, image, image_len, trace.cache, fails, fails_len, trace.hosted};
    const char *fault = device.make(&setup);
    if (fault) {
        printf("fault board %s\n", fault);
        return 1;
    }
    bool replayed = replay(&trace);
    device.end();
    if (!replayed) {
        fputs("the text isn't a trace, or has an event that the device can't be asked\n", stderr);
        return 77;
    }
    if (saved)
        save(saved, image, image_len);
    free(text);
    free(image);
    return fflush(stdout) ? 3 : 0;
}
