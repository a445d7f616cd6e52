/* Requests that are posted and not yet waited for: a get's values are in memory after the wait, and a put's are to stay there until it. */
#include "trace.h"

#include <pthread.h>
#include <stdlib.h>
#include <string.h>

typedef struct Posted {
    struct Posted *next;
    int ncid, request;
    bool put;
    Memory memory;
    unsigned long long sum;     /* of a put's values as they were */
} Posted;

static pthread_mutex_t lock = PTHREAD_MUTEX_INITIALIZER;
static Posted *posted;

void keep_posted(const Access *access, int request, Memory *memory)
{
    unsigned long long sums[2] = {0, 0};
    bool put = is_put(access->direction);
    void *values = put && values_wanted() ? packed_values(memory, true) : NULL;
    Posted *entry = put && values == NULL ? NULL : malloc(sizeof *entry);
    if (values != NULL)
        sums_of(memory, values, sums);
    free(values);
    if (entry == NULL) {
        free_memory(memory);
        return;
    }
    *entry = (Posted){.ncid = access->ncid, .request = request, .put = put, .memory = *memory, .sum = sums[0]};
    pthread_mutex_lock(&lock);
    entry->next = posted;
    posted = entry;
    pthread_mutex_unlock(&lock);
}

static int compare_ids(const void *first, const void *second)
{
    int a = *(const int *)first, b = *(const int *)second;
    return (a > b) - (a < b);
}

/* The ids that a wait lists, in order; NULL where it lists none, or there is no room. */
static int *sorted_ids(int count, const int *requests)
{
    int *sorted = count > 0 ? malloc((size_t)count * sizeof *sorted) : NULL;
    if (sorted != NULL) {
        memcpy(sorted, requests, (size_t)count * sizeof *sorted);
        qsort(sorted, (size_t)count, sizeof *sorted, compare_ids);
    }
    return sorted;
}

/* Whether a wait names the request. */
static bool chosen(const Posted *entry, int ncid, int count, const int *sorted)
{
    if (entry->ncid != ncid)
        return false;
    if (count == NC_REQ_ALL || (count == NC_GET_REQ_ALL && !entry->put) || (count == NC_PUT_REQ_ALL && entry->put))
        return true;
    return sorted != NULL && bsearch(&entry->request, sorted, (size_t)count, sizeof *sorted, compare_ids) != NULL;
}

/* Takes the entries that the wait names out of the list, as a list of their own. */
static Posted *take_out(int ncid, int count, const int *requests)
{
    int *sorted = sorted_ids(count, requests);
    Posted *taken = NULL, **end = &taken, **at = &posted;
    pthread_mutex_lock(&lock);
    while (*at != NULL) {
        Posted *entry = *at;
        if (!chosen(entry, ncid, count, sorted)) {
            at = &entry->next;
            continue;
        }
        *at = entry->next;
        *end = entry;
        end = &entry->next;
    }
    *end = NULL;
    pthread_mutex_unlock(&lock);
    free(sorted);
    return taken;
}

/* Whether a put's memory is another one than at its post. PnetCDF may hold it with its bytes in the file's order until the wait. */
static bool is_changed(const Posted *entry)
{
    unsigned long long sums[2];
    void *values = packed_values(&entry->memory, true);
    if (values == NULL)
        return false;
    sums_of(&entry->memory, values, sums);
    free(values);
    return sums[0] != entry->sum && sums[1] != entry->sum;
}

void tell_changed(int ncid, int count, const int *requests)
{
    bool first = true;
    int *sorted = line_open() ? sorted_ids(count, requests) : NULL;
    pthread_mutex_lock(&lock);
    for (const Posted *entry = posted; line_open() && entry != NULL; entry = entry->next) {
        if (!entry->put || !chosen(entry, ncid, count, sorted) || !is_changed(entry))
            continue;
        say(first ? ",\"changed\":[%d" : ",%d", entry->request);
        first = false;
    }
    pthread_mutex_unlock(&lock);
    free(sorted);
    if (!first)
        say("]");
}

void tell_completed(int ncid, int count, const int *requests, bool filled)
{
    bool first = true;
    Posted *next;
    for (Posted *entry = take_out(ncid, count, requests); entry != NULL; entry = next) {
        next = entry->next;
        long long at = filled && !entry->put && line_open() ? store_memory(&entry->memory) : -1;
        if (at >= 0) {
            say(first ? ",\"gets\":[[%d,%lld,%lld]" : ",[%d,%lld,%lld]", entry->request, at, (long long)entry->memory.length);
            first = false;
        }
        free_memory(&entry->memory);
        free(entry);
    }
    if (!first)
        say("]");
}

void drop_posted(int ncid)
{
    tell_completed(ncid, NC_REQ_ALL, NULL, false);
}
