/* The rows of the benchmark by a program on PnetCDF. */
#ifndef ROWS_H
#define ROWS_H
#include <mpi.h>
#include <pnetcdf.h>
#include <stdint.h>
#include <stdio.h>
#include <stdlib.h>
#include <string.h>

enum { MOST_RANKS = 8 };

extern int rank, ranks;
extern const char *buffer_size;       /* of an aggregator, where a row says it */

void check(int code);
void *room(size_t count, size_t size);
int created(void);                     /* the dataset of the command */
int opened(void);
int dimension(int dataset, const char *name, MPI_Offset length);
int variable(int dataset, const char *name, int number, nc_type type, int count, const int *dims); /* a number of 0 or more ends its name */
int found(int dataset, const char *name, int number);
int dealt(int n);                      /* how many of n things are this rank's, that are dealt in turn */
uint32_t *run_of_words(size_t count, uint32_t first);      /* numbers one after another, as bits */
uint64_t *run_of_doubles(size_t count, uint64_t first);

/* What a row needs is made before the time is taken. */
struct row {
    const char *name;
    void (*prepare)(int n), (*run)(int n);
};
extern const struct row call_rows[], field_rows[], region_rows[];      /* each ends with one without a name */
#endif
