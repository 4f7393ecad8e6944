/*
 * Makes the calls of rows on the C library, and compares what they answer: `rows FILE.calls ..`. It tells of each file how many
 * answer as they must, or of each row that doesn't its line, what was expected and what was found. The status is 0 where all do.
 */
#include <stdarg.h>
#include <stdio.h>
#include <stdlib.h>
#include <string.h>

#include "calls.h"

/* --- an answer */

static char answer[2 * MOST_BYTES + 1024];
static size_t answer_len;

void put(const char *format, ...)
{
    va_list words;
    va_start(words, format);
    answer_len += (size_t)vsnprintf(answer + answer_len, sizeof answer - answer_len, format, words);
    va_end(words);
    if (answer_len >= sizeof answer)
        answer_len = sizeof answer - 1;
}

void put_bytes(const uint8_t *bytes, size_t len)
{
    if (len == 0)
        put("-");
    for (size_t i = 0; i < len; i++)
        put("%02x", bytes[i]);
}

void put_code(uint32_t code)
{
#define NAMED(name) [KALYUBOS_##name] = #name
    static const char *const names[] = {
        [KALYUBOS_DONE] = "ok", NAMED(NO_BOARD), NAMED(HAS_BOARD), NAMED(BAD_SLOT), NAMED(BAD_RANGE), NAMED(NO_MEMORY),
        NAMED(BAD_WINDOW), NAMED(BAD_IMAGE), NAMED(NO_SLOTS), NAMED(TOO_MANY_SLOTS), NAMED(BAD_MEMORY_SIZE),
        NAMED(BAD_MEMORY_BASE), NAMED(EXTENT_OUTSIDE), NAMED(EXTENTS_OVERLAP), NAMED(BAD_CACHE), NAMED(NO_ROOM),
        NAMED(BAD_OUTLET), NAMED(BAD_SIZE), NAMED(MORE), NAMED(BUSY), NAMED(IO), NAMED(IDLE), NAMED(NO_IMAGE),
        NAMED(BAD_SNAPSHOT), NAMED(OTHER_SLOT), NAMED(BAD_STATE), NAMED(SHORT_BUFFER), NAMED(NO_REGIONS),
        NAMED(REGIONS_NOT_APART), NAMED(BAD_LOAN), NAMED(BAD_DEPTH), NAMED(OTHER_DEVICES), NAMED(BAD_DEVICE),
        NAMED(NOT_HOSTED), NAMED(RUNS_ON), NAMED(BAD_EXTENT), NAMED(BAD_WAITING),
    };
    if (code < sizeof names / sizeof *names)
        put("%s", names[code]);
    else
        put("%u", (unsigned)code);
}

/* --- the words of a call */

struct word next_word(struct words *words)
{
    const char *at = words->left, *space = at ? strchr(at, ' ') : NULL;
    words->is_wrong = words->is_wrong || !at;
    words->left = space ? space + 1 : NULL;
    if (!at)
        return (struct word){ "", 0 };
    return (struct word){ at, space ? (size_t)(space - at) : strlen(at) };
}

bool is_word(struct word word, const char *text)
{
    return word.len == strlen(text) && memcmp(word.at, text, word.len) == 0;
}

/* A hexadecimal digit's value, else 16. */
static unsigned digit(char c)
{
    return c >= '0' && c <= '9' ? (unsigned)(c - '0') : c >= 'a' && c <= 'f' ? (unsigned)(c - 'a' + 10) : 16;
}

uint64_t next_number(struct words *words, uint64_t most)
{
    struct word word = next_word(words);
    uint64_t number = 0;
    bool is_number = word.len > 0 && word.len <= 16;
    for (size_t i = 0; is_number && i < word.len; i++) {
        is_number = digit(word.at[i]) < 16;
        number = number << 4 | digit(word.at[i]);
    }
    is_number = is_number && number <= most;
    words->is_wrong = words->is_wrong || !is_number;
    return is_number ? number : 0;
}

size_t next_bytes(struct words *words, uint8_t *bytes)
{
    struct word word = next_word(words);
    size_t len = word.len / 2;
    bool are_bytes = word.len > 0 && word.len % 2 == 0 && len <= MOST_BYTES;
    if (is_word(word, "-"))
        return 0;
    for (size_t i = 0; are_bytes && i < len; i++) {
        unsigned high = digit(word.at[2 * i]), low = digit(word.at[2 * i + 1]);
        are_bytes = high < 16 && low < 16;
        bytes[i] = (uint8_t)(high << 4 | low);
    }
    words->is_wrong = words->is_wrong || !are_bytes;
    return are_bytes ? len : 0;
}

/* --- rows */

/* Makes a row's call. The answer is whether it answers as it must; writes where it doesn't. The line is cut at ` = `. */
static bool check_row(const char *file, size_t number, char *line)
{
    const char *expected = "ok";
    char *equals = strstr(line, " = ");
    if (equals) {
        *equals = '\0';
        expected = equals + 3;
    }
    answer_len = 0;
    answer[0] = '\0';
    enum made made = make_call(line);
    if (made == ANSWERED && strcmp(answer, expected) == 0)
        return true;
    printf("%s line %zu: %s: ", file, number, line);
    if (made == ANSWERED)
        printf("expected %s, found %s\n", expected, answer);
    else
        printf("%s\n", made == NO_CALL ? "no such call" : "the call's conditions don't hold");
    return false;
}

/* Makes the calls of a text, whose first line names its subject. */
static bool check_text(const char *file, char *text)
{
    size_t number = 0, count = 0, wrong = 0;
    for (char *line = text, *feed; (feed = strchr(line, '\n')); line = feed + 1) {
        *feed = '\0';
        if (++number == 1 && strcmp(line, "hosts") != 0) {
            printf("%s names no subject of C\n", file);
            return false;
        }
        if (number == 1 || *line == '\0' || *line == '#')
            continue;
        count++;
        wrong += !check_row(file, number, line);
    }
    if (count > 0 && wrong == 0)
        printf("%s: %zu calls answer as they must\n", file, count);
    return count > 0 && wrong == 0;
}

/* Makes the calls of a file, over a board of its own. */
static bool check_file(const char *file)
{
    static char text[1 << 20];
    FILE *open = fopen(file, "rb");
    size_t len = open ? fread(text, 1, sizeof text, open) : 0;
    if (open)
        fclose(open);
    if (len == 0 || len == sizeof text || text[len - 1] != '\n') {
        printf("%s can't be read\n", file);
        return false;
    }
    text[len] = '\0';
    return make_call("image 0") == ANSWERED && check_text(file, text);
}

int main(int count, char **words)
{
    bool all_well = count > 1;
    for (int i = 1; i < count; i++)
        all_well = check_file(words[i]) && all_well;
    return all_well ? 0 : 1;
}
