/* Reads a trace: CSV without a header, as the crate `csv` of Rust reads it. Plain C, and not proved. */
#include "trace.h"
#include <errno.h>
#include <stdlib.h>
#include <string.h>
#include <unistd.h>

enum { MOST_BYTES = 268435456, FIRST_ROOM = 1 << 16, MOST_DIGITS = 7, WORKERS = 500, FIELD_COUNT = 4 };

/* The fields of a record, as far as it has four, and how many it has. */
struct record { struct { uint32_t at, bytes; } fields[FIELD_COUNT]; size_t count; };

const char *fault_name(enum fault fault)
{
    static const char *const names[] = {"", "Fields", "Worker", "Op", "Sector", "Hex", "TooLong", "Unused", "Read", "Big", "Memory"};
    return names[fault];
}

const char *op_name(enum op op)
{
    static const char *const names[] = {"read", "write", "new", "trim", "meet"};
    return names[op];
}

/* ---- Records ---- */

static int is_end(uint8_t byte)
{
    return byte == '\n' || byte == '\r';
}

/* Reads the field at a place, and puts its bytes without the quotes where it begins. Returns the place of what ends it. */
static size_t cut_field(struct trace *trace, size_t at, size_t *bytes)
{
    uint8_t *text = trace->text, *to = text + at;
    const uint8_t *begin = to;
    int is_quoted = at < trace->bytes && text[at] == '"';
    at += is_quoted;
    while (at < trace->bytes && (is_quoted || (text[at] != ',' && !is_end(text[at])))) {
        if (!is_quoted || text[at] != '"') {
            *to++ = text[at++];
            continue;
        }
        at++;
        if (at < trace->bytes && text[at] == '"')
            *to++ = text[at++];
        else
            is_quoted = 0;
    }
    *bytes = (size_t)(to - begin);
    return at;
}

/* Reads the record at a place, which moves behind it: 1, or 0 at the end of the text. Empty lines are none. */
static int cut_record(struct trace *trace, size_t *place, struct record *record)
{
    size_t at = *place, bytes;
    while (at < trace->bytes && is_end(trace->text[at]))
        at++;
    *place = at;
    if (at == trace->bytes)
        return 0;
    for (record->count = 0;; at++) {
        size_t begin = at;
        at = cut_field(trace, at, &bytes);
        if (record->count < FIELD_COUNT) {
            record->fields[record->count].at = (uint32_t)begin;
            record->fields[record->count].bytes = (uint32_t)bytes;
        }
        record->count++;
        if (at == trace->bytes || trace->text[at] != ',')
            break;
    }
    *place = at;
    return 1;
}

/* ---- Commands ---- */

/* A number of a field, below a limit; or the limit if it is none. */
static uint32_t number_below(const uint8_t *text, size_t count, uint32_t limit)
{
    uint32_t number = 0;
    if (count == 0 || count > MOST_DIGITS)
        return limit;
    for (size_t i = 0; i < count; i++) {
        if (text[i] < '0' || text[i] > '9')
            return limit;
        number = 10 * number + (text[i] - '0');
    }
    return number < limit ? number : limit;
}

/* The value of a hexadecimal digit, or 16. */
static unsigned digit_of(uint8_t byte)
{
    return byte >= '0' && byte <= '9' ? byte - '0' : byte >= 'a' && byte <= 'f' ? byte - 'a' + 10 : byte >= 'A' && byte <= 'F' ? byte - 'A' + 10 : 16;
}

static int are_pairs(const uint8_t *text, size_t count)
{
    for (size_t i = 0; i < count; i++)
        if (digit_of(text[i]) == 16)
            return 0;
    return count % 2 == 0;
}

/* The op of a field, or -1. */
static int op_of(const uint8_t *text, size_t count)
{
    for (int op = OP_READ; op <= OP_MEET; op++)
        if (strlen(op_name(op)) == count && memcmp(op_name(op), text, count) == 0)
            return op;
    return -1;
}

/* The command of a record, or the first fault of it. */
static enum fault command_of(const struct trace *trace, const struct record *record, uint32_t sectors, uint32_t page_bytes, struct command *command)
{
    const uint8_t *field[FIELD_COUNT];
    size_t bytes[FIELD_COUNT];
    if (record->count != FIELD_COUNT)
        return FIELDS;
    for (int i = 0; i < FIELD_COUNT; i++) {
        field[i] = trace->text + record->fields[i].at;
        bytes[i] = record->fields[i].bytes;
    }
    uint32_t worker = number_below(field[0], bytes[0], WORKERS), sector = number_below(field[2], bytes[2], sectors);
    int op = op_of(field[1], bytes[1]), takes_data = op == OP_WRITE || op == OP_NEW;
    if (worker == WORKERS)
        return WORKER;
    if (op < 0)
        return OP;
    if (sector == sectors)
        return SECTOR;
    if (takes_data && !are_pairs(field[3], bytes[3]))
        return HEX;
    if (takes_data && bytes[3] > 2 * (size_t)page_bytes)
        return TOO_LONG;
    if (!takes_data && (bytes[3] != 0 || (op == OP_MEET && (worker != 0 || sector != 0))))
        return UNUSED;
    *command = (struct command){sector, record->fields[3].at, (uint32_t)bytes[3], (unsigned)op & 7};
    return NO_FAULT;
}

/* ---- The whole trace ---- */

/* Makes room for one more of `count` items. */
static int has_room(void **items, size_t count, size_t *room, size_t item_bytes)
{
    if (count < *room)
        return 1;
    size_t more = *room ? 2 * *room : FIRST_ROOM;
    void *grown = realloc(*items, more * item_bytes);
    if (!grown)
        return 0;
    *items = grown;
    *room = more;
    return 1;
}

/* Reads the text: at most one byte more than a trace may have. */
static enum fault read_text(struct trace *trace, int fd)
{
    size_t room = 0;
    for (;;) {
        void *text = trace->text;
        if (!has_room(&text, trace->bytes, &room, 1))
            return MEMORY;
        trace->text = text;
        size_t wanted = room - trace->bytes, most = MOST_BYTES + 1 - trace->bytes;
        ssize_t count = read(fd, trace->text + trace->bytes, wanted < most ? wanted : most);
        if (count < 0 && errno == EINTR)
            continue;
        if (count <= 0)
            return count == 0 ? NO_FAULT : READ;
        trace->bytes += (size_t)count;
        if (trace->bytes > MOST_BYTES)
            return BIG;
    }
}

enum fault trace_load(struct trace *trace, int fd, uint32_t sectors, uint32_t page_bytes, size_t *line)
{
    struct record record;
    *trace = (struct trace){0};
    *line = 0;
    enum fault fault = read_text(trace, fd);
    if (fault)
        return fault;
    size_t at = trace->bytes >= 3 && memcmp(trace->text, "\xef\xbb\xbf", 3) == 0 ? 3 : 0;
    while (cut_record(trace, &at, &record)) {
        void *commands = trace->commands;
        if (!has_room(&commands, trace->count, &trace->room, sizeof *trace->commands))
            return MEMORY;
        trace->commands = commands;
        fault = command_of(trace, &record, sectors, page_bytes, &trace->commands[trace->count]);
        if (fault) {
            *line = trace->count + 1;
            return fault;
        }
        trace->count++;
    }
    return NO_FAULT;
}

void trace_page(const struct trace *trace, const struct command *command, uint8_t *page, uint32_t page_bytes)
{
    const uint8_t *digits = trace->text + command->at;
    memset(page, 0, page_bytes);
    for (uint32_t i = 0; i < command->digits / 2; i++)
        page[i] = (uint8_t)(16 * digit_of(digits[2 * i]) + digit_of(digits[2 * i + 1]));
}

void trace_free(struct trace *trace)
{
    free(trace->text);
    free(trace->commands);
}
