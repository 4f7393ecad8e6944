/* The files of files.h. */
#include "files.h"

#include <stdlib.h>
#include <unistd.h>

#include "words.h"

enum { PATH = 4096 };

FILE *open_file(const char *path, const char *mode)
{
    FILE *file = fopen(path, mode);
    if (file == NULL)
        fail(path);
    return file;
}

FILE *create_file(const char *folder, size_t guest, const char *what)
{
    char path[PATH];
    snprintf(path, sizeof path, "%s/guest-%zu.%s", folder, guest, what);
    return open_file(path, "w+b");
}

struct machine_file read_file(const char *path)
{
    FILE *file = open_file(path, "rb");
    fseek(file, 0, SEEK_END);
    size_t len = ftell(file);
    uint8_t *bytes = malloc(len + 1);
    rewind(file);
    if (bytes == NULL || fread(bytes, 1, len, file) != len)
        fail(path);
    fclose(file);
    return (struct machine_file){ bytes, len };
}

void replace_file(const char *path, const uint8_t *bytes, size_t len)
{
    char beside[PATH];
    snprintf(beside, sizeof beside, "%s.new", path);
    FILE *file = open_file(beside, "wb");
    if (fwrite(bytes, 1, len, file) != len || fflush(file) != 0 || fsync(fileno(file)) != 0 || fclose(file) != 0 ||
        rename(beside, path) != 0)
        fail(path);
}
