/* Lines of the trace, and which calls are written. Each thread makes its lines in memory of its own. */
#include "trace.h"
#include "trace_file.h"

#include <pthread.h>
#include <stdarg.h>
#include <stdio.h>
#include <stdlib.h>
#include <string.h>

enum { DATASETS = NC_MAX_NFILES };

/* What the threads share, under the lock. */
static pthread_mutex_t lock = PTHREAD_MUTEX_INITIALIZER;
static long calls;                      /* traced so far */
static int datasets, open_datasets, threads;
static int numbers[DATASETS];           /* one more than the number of an open dataset, 0 for none */

/* The call that a thread has under way, and its line as far as it is made. */
static _Thread_local struct {
    int depth;          /* calls of PnetCDF that are under way in each other */
    bool writing;       /* the outer one is traced */
    long number;
    int dataset;
    double made, took;  /* when PnetCDF was called, and how long that took; below 0 until it is known */
    char *text;
    size_t used, room;
} here;
static _Thread_local int thread = -1;

/* Room for that many more characters; the answer is whether there is any. */
static bool make_room(size_t more)
{
    if (here.used + more <= here.room)
        return true;
    size_t room = 2 * here.room + more + 256;
    char *text = realloc(here.text, room);
    if (text == NULL)
        return false;
    here.text = text;
    here.room = room;
    return true;
}

void say(const char *format, ...)
{
    va_list arguments;
    va_start(arguments, format);
    int length = vsnprintf(NULL, 0, format, arguments);
    va_end(arguments);
    if (length < 0 || !make_room((size_t)length + 1))
        return;
    va_start(arguments, format);
    vsnprintf(here.text + here.used, (size_t)length + 1, format, arguments);
    va_end(arguments);
    here.used += (size_t)length;
}

static void say_byte(char byte)
{
    if (make_room(1))
        here.text[here.used++] = byte;
}

static void write_line(void)
{
    say("}\n");
    write_trace(here.text, here.used);
    here.used = 0;
}

/* The first line of the trace. */
static void write_head(void)
{
    char run[256], mpi[MPI_MAX_LIBRARY_VERSION_STRING];
    int rank, size, length;
    const int one = 1;
    MPI_Comm_rank(MPI_COMM_WORLD, &rank);
    MPI_Comm_size(MPI_COMM_WORLD, &size);
    MPI_Get_library_version(mpi, &length);
    mpi[strcspn(mpi, "\n")] = '\0';
    name_run(run, sizeof run);
    here.used = 0;
    say("{\"nctrace\":2");
    say(",\"run\":");
    say_text(run);
    say(",\"rank\":%d,\"ranks\":%d,\"started\":%.6f,\"values\":%s", rank, size, seconds_of(CLOCK_REALTIME), values_wanted() ? "true" : "false");
    say(",\"order\":\"%s\",\"library\":", *(const char *)&one ? "little" : "big");
    say_text(ncmpi_inq_libvers());
    say(",\"mpi\":");
    say_text(mpi);
    write_line();
}

/* Takes a number for a call of this thread; the lock is held. */
static void take_number(const char *name)
{
    here.writing = tracing();
    if (!here.writing)
        return;
    if (thread < 0)
        thread = threads++;
    here.number = calls++;
    here.used = 0;
    say("{\"n\":%ld", here.number);
    if (here.dataset >= 0)
        say(",\"dataset\":%d", here.dataset);
    say(",\"call\":\"%s\",\"time\":%.6f", name, trace_time());
    if (thread > 0)
        say(",\"thread\":%d", thread);
}

bool inside_call(void)
{
    return here.depth > 0;
}

void begin_call(int ncid, const char *name)
{
    if (here.depth++ > 0)
        return;
    pthread_mutex_lock(&lock);
    here.writing = false;
    here.dataset = ncid >= 0 && ncid < DATASETS ? numbers[ncid] - 1 : -1;
    if (here.dataset >= 0)
        take_number(name);
    pthread_mutex_unlock(&lock);
}

void begin_dataset(const char *name)
{
    if (here.depth++ > 0)
        return;
    pthread_mutex_lock(&lock);
    if (trace_unbegun() && begin_trace())
        write_head();
    here.dataset = datasets++;
    take_number(name);
    pthread_mutex_unlock(&lock);
}

void begin_barrier(void)
{
    if (here.depth++ > 0)
        return;
    pthread_mutex_lock(&lock);
    here.writing = false;
    here.dataset = -1;
    if (open_datasets > 0)
        take_number("barrier");
    pthread_mutex_unlock(&lock);
}

void begin_delete(void)
{
    if (here.depth++ > 0)
        return;
    pthread_mutex_lock(&lock);
    here.writing = false;
    here.dataset = -1;
    if (tracing())
        take_number("delete");
    pthread_mutex_unlock(&lock);
}

void call_made(void)
{
    if (here.depth != 1)
        return;
    if (here.writing) {
        write_line();
        say("{\"n\":%ld", here.number);
    }
    here.took = -1;
    call_begins();
}

void call_begins(void)
{
    if (here.depth == 1)
        here.made = trace_time();
}

void call_answered(void)
{
    if (here.depth == 1 && here.took < 0)
        here.took = trace_time() - here.made;
}

int end_call(int code)
{
    call_answered();
    if (here.depth == 1 && here.writing) {
        number_field("code", code);
        if (code != NC_NOERR)
            text_field("name", ncmpi_strerrno(code));
        say(",\"took\":%.6f", here.took);
        write_line();
        here.writing = false;
        free(here.text);
        here.text = NULL;
        here.room = 0;
    }
    here.depth--;
    return code;
}

void dataset_opened(int ncid)
{
    if (here.depth != 1 || !here.writing || ncid < 0 || ncid >= DATASETS)
        return;
    pthread_mutex_lock(&lock);
    open_datasets += numbers[ncid] == 0;
    numbers[ncid] = here.dataset + 1;
    pthread_mutex_unlock(&lock);
}

void dataset_closed(int ncid)
{
    if (here.depth != 1 || ncid < 0 || ncid >= DATASETS)
        return;
    pthread_mutex_lock(&lock);
    open_datasets -= numbers[ncid] > 0;
    numbers[ncid] = 0;
    pthread_mutex_unlock(&lock);
}

/* ---- fields */

bool line_open(void)
{
    return here.depth == 1 && here.writing;
}

static bool begin_field(const char *name)
{
    if (line_open())
        say(",\"%s\":", name);
    return line_open();
}

void number_field(const char *name, long long number)
{
    if (begin_field(name))
        say("%lld", number);
}

/* Each byte stands for itself, those past ASCII as the characters of the same numbers. */
void say_text(const char *text)
{
    say_byte('"');
    for (const unsigned char *c = (const unsigned char *)text; *c; c++) {
        if (*c < 0x20 || *c == '"' || *c == '\\' || *c > 0x7e)
            say("\\u%04x", *c);
        else
            say_byte((char)*c);
    }
    say_byte('"');
}

void text_field(const char *name, const char *text)
{
    if (!begin_field(name))
        return;
    if (text == NULL)
        say("null");
    else
        say_text(text);
}

void say_list(int count, const MPI_Offset *list)
{
    say("[");
    for (int i = 0; i < count; i++)
        say("%s%lld", i == 0 ? "" : ",", (long long)list[i]);
    say("]");
}

void list_field(const char *name, int count, const MPI_Offset *list)
{
    if (list != NULL && begin_field(name))
        say_list(count, list);
}

void ids_field(const char *name, int count, const int *list)
{
    if (list == NULL || !begin_field(name))
        return;
    say("[");
    for (int i = 0; i < count; i++)
        say("%s%d", i == 0 ? "" : ",", list[i]);
    say("]");
}
