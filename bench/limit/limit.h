/* The limit: what a run of ncrun does and nothing else, by one plain thread. */
#ifndef LIMIT_H
#define LIMIT_H
#define _FILE_OFFSET_BITS 64
#define _DEFAULT_SOURCE
#include <endian.h>
#include <stddef.h>
#include <stdint.h>
#include <stdlib.h>
#include <string.h>
#include <sys/types.h>

enum { SHORT = 3, INT = 4, FLOAT = 5, DOUBLE = 6 };       /* types, as a header spells them */
enum { WINDOW = 1 << 24 };                                /* how many bytes are read or written at once, at most */
enum { MOST_RANKS = 8 };

extern int ranks;                                         /* how many ranks the row's script has */

void need(int holds, const char *what);
void *room(size_t count, size_t size);

/* ---- the dataset (dataset.c): CDF-1, its definitions one by one, and then its layout */

void new_dataset(void);                                            /* forgets the definitions before */
void dimension(const char *name, uint32_t length);                 /* 0: the record dimension */
void variable(const char *name, int number, uint32_t type, uint32_t rank); /* over the first dimensions; a number of 0 or more ends its name */
void attributes_of_last(uint32_t count);                           /* ints a0, a1 and so on: 0, 1 .. */
void lay_out(uint32_t records);
size_t header_length(void);
uint32_t header_word(size_t at);                                   /* of the header as it was read */
off_t begin_of(uint32_t variable);

void write_header(int file);
void read_header(int file);
void write_at(int file, const void *bytes, size_t len, off_t at);
void read_at(int file, void *bytes, size_t len, off_t at);
void lengthen(int file, off_t len);

/* ---- the text (text.c), as docs/OUTPUT.md has it */

void say(const char *words);
void say_number(int64_t number);
void say_bits(uint64_t bits, int digits);
void say_start(uint32_t meetings);
void say_rank(int rank);
void say_calls(uint32_t first, uint32_t count, const char *call);  /* so many calls one after another, each of which is done */
void say_call(uint32_t number, const char *call);                  /* one, whose line goes on */
void say_end_of_rank(void);
void say_dataset(void);
void say_all(void);
void say_alike(uint32_t count, const char *call);                  /* all, of ranks that made the same collective calls */

/* ---- the rows: what a run does, and what makes the dataset that its script opens */

int attributes(int file, uint32_t n);
int before_attributes(int file, uint32_t n);
int header(int file, uint32_t n);
int before_header(int file, uint32_t n);
int fields(int file, uint32_t n);
int generate(int file, uint64_t seed, uint32_t n);
int calls(int file, uint32_t n);
int waits(int file, uint32_t n);
int variables(int file, uint32_t n);
int small(int file, uint32_t n);
int steps(int file, uint32_t n);
int posted(int file, uint32_t n);
int independent(int file, uint32_t n);
int blocks(int file, uint32_t n);
int block_reads(int file, uint32_t n);
int before_block_reads(int file, uint32_t n);
int cyclic_rows(int file, uint32_t n);
int cyclic_columns(int file, uint32_t n);
int varn(int file, uint32_t n);
int fill(int file, uint32_t n);
void read_numbers(uint32_t n);                                     /* of the script, before the dataset is opened */
int numbers(int file, uint32_t n);
int column(int file, uint32_t n);
int before_column(int file, uint32_t n);
int aggregators(int file, uint32_t n);
int reads(int file, uint32_t n);
int reads_by_mib(int file, uint32_t n);
int before_reads(int file, uint32_t n);
#endif
