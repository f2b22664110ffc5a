#define _GNU_SOURCE
#define NBDKIT_API_VERSION 2
#include "part.h"

#include <ctype.h>
#include <errno.h>
#include <fcntl.h>
#include <inttypes.h>
#include <nbdkit-plugin.h>
#include <stdio.h>
#include <stdlib.h>
#include <string.h>
#include <unistd.h>

#include <image_format.h>

enum { LONGEST_LINE = 4096, MAX_MICROSECONDS = 1000000000 };

// The keys of a part. Texts are read over.
enum key { READ, PROGRAM, ERASE, TRANSFER, COPYBACK, NAME, SOURCE, KEYS };
static const char *const names[KEYS] = {
    [READ] = "read", [PROGRAM] = "program", [ERASE] = "erase", [TRANSFER] = "transfer", [COPYBACK] = "copyback", [NAME] = "name", [SOURCE] = "source",
};

// A place in a file.
struct place {
    const char *file;
    uint32_t line;
};

static int refuse(const struct place *place, const char *text) {
    nbdkit_error("part=%s: line %" PRIu32 ": %s", place->file, place->line, text);
    return -1;
}

static const char *skip_spaces(const char *at) {
    return at + strspn(at, " \t");
}

// The digits from here on, of which two may have a `_` between them. NULL if there are none.
static const char *skip_digits(const char *at) {
    if (!isdigit((unsigned char) *at))
        return NULL;
    while (isdigit((unsigned char) *at) || (*at == '_' && isdigit((unsigned char) at[1])))
        at++;
    return at;
}

// The end of a decimal number of TOML, or NULL.
static const char *skip_number(const char *at) {
    at += *at == '+' || *at == '-';
    if (*at == '0' && (isdigit((unsigned char) at[1]) || at[1] == '_'))
        return NULL;
    at = skip_digits(at);
    if (at && *at == '.')
        at = skip_digits(at + 1);
    if (at && (*at == 'e' || *at == 'E'))
        at = skip_digits(at + 1 + (at[1] == '+' || at[1] == '-'));
    return at;
}

// The end of a text in quotes, or NULL.
static const char *skip_text(const char *at) {
    char quote = *at++;
    while (*at && *at != quote) {
        at += quote == '"' && *at == '\\' && at[1];
        at++;
    }
    return *at ? at + 1 : NULL;
}

// A time in nanoseconds, from a number of microseconds that ends at `end`.
static int read_time(const struct place *place, enum key key, const char *at, const char *end, uint64_t *time) {
    char digits[LONGEST_LINE];
    size_t count = 0;
    for (; at < end; at++)
        if (*at != '_')
            digits[count++] = *at;
    digits[count] = 0;
    double microseconds = strtod(digits, NULL);
    if (!(microseconds >= 0 && microseconds <= MAX_MICROSECONDS))
        return refuse(place, "a time is 0 to 1000000000 microseconds");
    *time = (uint64_t) (microseconds * 1000 + 0.5);
    return *time > 0 || key == TRANSFER ? 0 : refuse(place, "a time is less than a nanosecond; only a transfer may be 0");
}

// The value from here to the end of the line.
static int read_value(const struct place *place, enum key key, const char *at, uint64_t *time) {
    int is_text = key == NAME || key == SOURCE;
    if (is_text && *at != '"' && *at != '\'')
        return refuse(place, "a name or a source is a text in quotes");
    const char *end = is_text ? skip_text(at) : skip_number(at);
    if (!end || (*skip_spaces(end) && *skip_spaces(end) != '#'))
        return refuse(place, is_text ? "the text doesn't end, or something is behind it" : "a time is a decimal number of microseconds");
    return is_text ? 0 : read_time(place, key, at, end, time);
}

// A line, which may be empty or a comment.
static int read_line(const struct place *place, const char *at, uint64_t *times, int *has) {
    at = skip_spaces(at);
    if (*at == 0 || *at == '#')
        return 0;
    size_t length = strspn(at, "abcdefghijklmnopqrstuvwxyzABCDEFGHIJKLMNOPQRSTUVWXYZ0123456789_-");
    for (int key = 0; key < KEYS; key++) {
        if (strlen(names[key]) != length || strncmp(at, names[key], length) != 0)
            continue;
        if (has[key])
            return refuse(place, "the key is there twice");
        has[key] = 1;
        at = skip_spaces(at + length);
        return *at == '=' ? read_value(place, (enum key) key, skip_spaces(at + 1), &times[key]) : refuse(place, "a key without =");
    }
    return refuse(place, "not a key of a part; the times are read, program, copyback, erase and transfer, in microseconds");
}

// The line without its end. Only tabs may be there of the characters that aren't shown.
static int cut_end(const struct place *place, char *line, size_t length) {
    if (length > 0 && line[length - 1] == '\n')
        line[--length] = 0;
    if (length > 0 && line[length - 1] == '\r')
        line[--length] = 0;
    for (size_t i = 0; i < length; i++)
        if (line[i] != '\t' && iscntrl((unsigned char) line[i]))
            return refuse(place, "a control character");
    return 0;
}

static int read_lines(FILE *file, struct place *place, uint64_t *times, int *has) {
    char *line = NULL;
    size_t room = 0;
    int result = 0;
    for (ssize_t length; result == 0 && (length = getline(&line, &room, file)) != -1;) {
        place->line++;
        result = length >= LONGEST_LINE ? refuse(place, "the line is too long") : cut_end(place, line, (size_t) length);
        if (result == 0)
            result = read_line(place, line, times, has);
    }
    free(line);
    if (result == 0 && ferror(file)) {
        nbdkit_error("part=%s: %s", place->file, strerror(errno));
        return -1;
    }
    return result;
}

static int check_all(const char *file, const int *has) {
    for (int key = 0; key < COPYBACK; key++) {
        if (has[key])
            continue;
        nbdkit_error("part=%s: the time %s is missing: data sheets have it, and there is no default", file, names[key]);
        return -1;
    }
    return 0;
}

// Opens a file of the disk, which has an end and for which nobody has to wait.
static FILE *open_file(const char *name) {
    int fd = mtl_open_file(name, O_RDONLY);
    FILE *file = fd >= 0 ? fdopen(fd, "r") : NULL;
    if (file)
        return file;
    nbdkit_error("part=%s: %s", name, errno == EINVAL ? "not a regular file" : strerror(errno));
    if (fd >= 0)
        close(fd);
    return NULL;
}

int part_read(const char *name, struct part *part) {
    struct place place = {.file = name};
    uint64_t times[KEYS] = {0};
    int has[KEYS] = {0};
    FILE *file = open_file(name);
    if (!file)
        return -1;
    int result = read_lines(file, &place, times, has);
    fclose(file);
    if (result == -1 || check_all(name, has) == -1)
        return -1;
    *part = (struct part){.read = times[READ], .program = times[PROGRAM], .copyback = times[COPYBACK], .erase = times[ERASE], .transfer = times[TRANSFER],
                          .has_copyback = has[COPYBACK]};
    return 0;
}
