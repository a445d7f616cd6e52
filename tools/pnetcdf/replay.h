/* What the parts of ncreplay share: a script's lines as words, values, and the text that a rank prints. */
#ifndef REPLAY_H
#define REPLAY_H

#include <mpi.h>
#include <pnetcdf.h>
#include <stdbool.h>
#include <stddef.h>
#include <stdint.h>

/* Ends the program on all ranks with a message; the line is left out where it is 0. */
_Noreturn void stop(int line, const char *format, ...);
void *room(size_t count, size_t size);

/* A word of a script; that of a text is without quotes and escapes. */
typedef struct { char *bytes; size_t length; bool text; } Word;
typedef struct { int number, count; Word *words; } Line;

typedef struct {
    bool fresh, filled;
    int version, ranks, definitions, calls;
    Line *definition, *call;    /* without the head, `ranks`, `fill` and `data` */
} Script;

Script *read_script(const char *path);
bool is_word(const Line *line, int at, const char *word);
const char *word_at(const Line *line, int at);
long long size_of_word(const Line *line, int at);
/* The list that is spelled [a,b]: its length; at most `most` sizes. */
int list_of_word(const Line *line, int at, MPI_Offset *list, int most);

typedef enum { NUMBERS, CHARACTERS, PATTERNS } Kind;
typedef struct { Kind kind; size_t count; __int128 *of; } Values;

/* The values from that word on to the line's end. */
Values read_values(const Line *line, int at);

/* A type of variables with its memory. */
typedef struct { nc_type type; const char *word; MPI_Datatype memory; size_t size; } External;
const External *external_of_word(const char *word);
const External *external_of_type(nc_type type);
/* The memory type that these values are given in: the variable's own wherever each of them fits. */
const External *memory_type(const External *own, const Values *values);
void store_value(const External *type, void *memory, size_t at, __int128 value);

/* A text that grows. */
typedef struct { char *bytes; size_t length, room; } Text;
void add(Text *text, const char *format, ...);
void add_values(Text *text, const External *type, const void *memory, size_t count);
void add_offsets(Text *text, const char *path);
const char *code_name(int code);

/* The run of one rank. */
typedef struct {
    int ncid, rank, ranks, call;
    bool independent;
    Text answers, order;   /* of the order: a line for each stretch between two meetings */
} Run;

void do_call(Run *run, const Line *line);
int pending(Run *run);

#endif
