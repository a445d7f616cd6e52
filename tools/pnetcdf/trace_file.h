/* The files of this rank's trace. */
#ifndef TRACE_FILE_H
#define TRACE_FILE_H

#include <stdbool.h>
#include <stddef.h>
#include <time.h>

/* Opens the files; false, with a message, where that can't be. Only one thread may ask. */
bool begin_trace(void);
bool trace_unbegun(void);
/* Whether lines are written: after the beginning, before the end, and while the files take them. */
bool tracing(void);
void write_trace(const char *line, size_t length);

/* What the launcher calls this run in all of its ranks alike; empty where it doesn't say. */
void name_run(char *name, size_t room);

double seconds_of(clockid_t clock);
/* Seconds since the trace began. */
double trace_time(void);

#endif
