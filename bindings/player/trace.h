/* A trace, as docs/FORMATS.md defines it, for a player of one thread. */
#ifndef TRACE_H
#define TRACE_H

#include <stddef.h>
#include <stdint.h>

enum op { OP_READ, OP_WRITE, OP_NEW, OP_TRIM, OP_MEET };

/* A command of a trace. Its digits begin at `at` of the text; a write has `digits` of them. */
struct command { uint32_t sector, at, digits : 29, op : 3; };

struct trace {
    uint8_t *text;
    size_t bytes, count, room;
    struct command *commands;
};

/* Why a trace is refused. The last three are of the whole text, and have line 0. */
enum fault { NO_FAULT, FIELDS, WORKER, OP, SECTOR, HEX, TOO_LONG, UNUSED, READ, BIG, MEMORY };

/* A fault's name, for messages. */
const char *fault_name(enum fault fault);

const char *op_name(enum op op);

/* Reads a whole trace, and checks each line of it for a device with these numbers. With a fault `line` is the number of its line. */
enum fault trace_load(struct trace *trace, int fd, uint32_t sectors, uint32_t page_bytes, size_t *line);

/* The page of a write: its digits, and zeros behind them. */
void trace_page(const struct trace *trace, const struct command *command, uint8_t *page, uint32_t page_bytes);

void trace_free(struct trace *trace);

#endif
