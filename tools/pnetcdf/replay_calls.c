/* The calls of one rank: what they answer, posted requests and waits. */
#include "access.h"

#include <stdio.h>
#include <stdlib.h>
#include <string.h>

enum { NO_REQUEST = 0x7ffffff0, NOT_TOLD = 1 };

/* A request that was posted under an id of the script. */
typedef struct Post {
    struct Post *next;
    long long id;
    int request;
    bool open, get;
    Access access;
} Post;

static Post *posts, **last_post = &posts;

static bool meets(const Line *line)
{
    static const char *const others[] = {"begin_indep_data", "end_indep_data", "sync_numrecs", "fill_var_rec"};
    const char *word = word_at(line, 1);
    size_t length = strlen(word);
    for (int i = 0; i < 4; i++)
        if (strcmp(word, others[i]) == 0)
            return true;
    return length > 4 && strcmp(word + length - 4, "_all") == 0;
}

static void mark(Run *run, const Line *line)
{
    const char *word = word_at(line, 1);
    bool alone = strncmp(word, "put_", 4) == 0 || strncmp(word, "get_", 4) == 0 || strcmp(word, "wait") == 0;
    if (meets(line))
        add(&run->order, "\n");
    else if (alone && run->independent)
        add(&run->order, " s%d.%d", run->rank, run->call);
}

static void do_blocking(Run *run, Access *access)
{
    int code = access->refusal != NULL ? take_part(run->ncid, access) : blocking_call(run->ncid, access);
    const char *name = code == NC_NOERR && access->refusal != NULL ? access->refusal : code_name(code);
    add(&run->answers, " %s", name);
    if (access->verb == GET && code == NC_NOERR && access->refusal == NULL)
        add_values(&run->answers, access->type, access->memory, access->elements > 0 ? (size_t)access->reach : 0);
    free(access->memory);
}

static void do_post(Run *run, long long id, Access *access)
{
    int request = NC_REQ_NULL, code = NC_NOERR;
    if (access->refusal == NULL)
        code = posting_call(run->ncid, access, &request);
    if (access->refusal != NULL || (code != NC_NOERR && code != NC_ERANGE)) {
        add(&run->answers, " %s", access->refusal != NULL ? access->refusal : code_name(code));
        return;
    }
    Post *post = room(1, sizeof *post);
    *post = (Post){.id = id, .request = request, .open = request != NC_REQ_NULL,
                   .get = access->verb == IGET, .access = *access};
    *last_post = post;
    last_post = &post->next;
    add(&run->answers, " %s", code == NC_NOERR && request == NC_REQ_NULL ? "null" : code_name(code));
}

static void do_access(Run *run, const Line *line, Access *access)
{
    bool posted = access->verb >= IPUT;
    long long id = posted ? size_of_word(line, 2) : 0;
    read_access(run->ncid, line, posted ? 3 : 2, access);
    if (posted)
        do_post(run, id, access);
    else
        do_blocking(run, access);
}

/* ---- waits */

static Post *find_post(long long id)
{
    for (Post *post = posts; post != NULL; post = post->next)
        if (post->id == id)
            return post;
    return NULL;
}

int pending(Run *run)
{
    int count = 0, known = 0;
    for (Post *post = posts; post != NULL; post = post->next)
        count += post->open;
    if (ncmpi_inq_nreqs(run->ncid, &known) == NC_NOERR && known != count)
        fprintf(stderr, "ncreplay: rank %d: PnetCDF has %d pending requests and the script %d\n", run->rank, known, count);
    return count;
}

/* The posts that the words choose, NULL for an id that none has. */
static int choose(const Line *line, Post ***chosen)
{
    int count = 0, most = line->count;
    bool every = is_word(line, 2, "all");
    for (Post *post = posts; every && post != NULL; post = post->next)
        most += post->open;
    *chosen = room((size_t)most, sizeof **chosen);
    for (Post *post = posts; every && post != NULL; post = post->next)
        if (post->open)
            (*chosen)[count++] = post;
    for (int at = 2; !every && at < line->count; at++)
        (*chosen)[count++] = find_post(size_of_word(line, at));
    return count;
}

/* The line of one id; a status that PnetCDF left as it was is -. */
static void item(Run *run, long long id, Post *post, int status, bool filled)
{
    bool null = post != NULL && post->request == NC_REQ_NULL;
    add(&run->answers, "\n  %lld %s", id, null ? "null" : status == NOT_TOLD ? "-" : code_name(status));
    if (filled && post != NULL && post->get && post->open && status == NC_NOERR)
        add_values(&run->answers, post->access.type, post->access.memory, (size_t)post->access.reach);
}

static int wait_for(int ncid, const Line *line, int count, int *requests, int *statuses)
{
    if (is_word(line, 1, "cancel"))
        return ncmpi_cancel(ncid, count, requests, statuses);
    if (is_word(line, 1, "wait_all"))
        return ncmpi_wait_all(ncid, count, requests, statuses);
    return ncmpi_wait(ncid, count, requests, statuses);
}

static void do_wait(Run *run, const Line *line)
{
    bool every = is_word(line, 2, "all");
    Post **chosen;
    int count = choose(line, &chosen);
    int *requests = room((size_t)count, sizeof(int)), *statuses = room((size_t)count, sizeof(int));
    for (int i = 0; i < count; i++) {
        Post *post = chosen[i];
        requests[i] = post == NULL || (!post->open && post->request != NC_REQ_NULL) ? NO_REQUEST : post->request;
        statuses[i] = NOT_TOLD;
    }
    int code = wait_for(run->ncid, line, count, requests, statuses);
    bool undone = code == NC_EINVAL_REQUEST;
    add(&run->answers, " %s", code_name(code));
    for (int i = 0; i < count && code != NC_EINDEP && code != NC_ENOTINDEP; i++) {
        item(run, every ? chosen[i]->id : size_of_word(line, 2 + i), chosen[i], statuses[i], !undone && !is_word(line, 1, "cancel"));
        if (chosen[i] != NULL && !undone)
            chosen[i]->open = false;
    }
    free(chosen);
    free(requests);
    free(statuses);
}

/* ---- the other calls */

static void do_inq_dim(Run *run, const Line *line)
{
    int dim;
    MPI_Offset length = 0;
    int code = ncmpi_inq_dimid(run->ncid, word_at(line, 2), &dim);
    if (code == NC_NOERR)
        code = ncmpi_inq_dimlen(run->ncid, dim, &length);
    add(&run->answers, " %s", code_name(code));
    if (code == NC_NOERR)
        add(&run->answers, " %lld", (long long)length);
}

static int plain_call(Run *run, const Line *line)
{
    Access named = {.dims = 0};
    const char *word = word_at(line, 1);
    if (strcmp(word, "begin_indep_data") == 0)
        return ncmpi_begin_indep_data(run->ncid);
    if (strcmp(word, "end_indep_data") == 0)
        return ncmpi_end_indep_data(run->ncid);
    if (strcmp(word, "sync_numrecs") == 0)
        return ncmpi_sync_numrecs(run->ncid);
    if (strcmp(word, "buffer_attach") == 0)
        return ncmpi_buffer_attach(run->ncid, size_of_word(line, 2));
    if (strcmp(word, "buffer_detach") == 0)
        return ncmpi_buffer_detach(run->ncid);
    if (strcmp(word, "fill_var_rec") != 0)
        stop(line->number, "unknown word");
    find_variable(run->ncid, word_at(line, 2), &named);
    return ncmpi_fill_var_rec(run->ncid, named.varid, size_of_word(line, 3));
}

void do_call(Run *run, const Line *line)
{
    Access access = {.dims = 0};
    const char *word = word_at(line, 1);
    mark(run, line);
    add(&run->answers, "%d %s", run->call, word);
    if (strcmp(word, "wait") == 0 || strcmp(word, "wait_all") == 0 || strcmp(word, "cancel") == 0)
        do_wait(run, line);
    else if (strcmp(word, "inq_dimlen") == 0)
        do_inq_dim(run, line);
    else if (read_verb(word, &access))
        do_access(run, line, &access);
    else {
        int code = plain_call(run, line);
        add(&run->answers, " %s", code_name(code));
        if (code == NC_NOERR && strcmp(word, "begin_indep_data") == 0)
            run->independent = true;
        if (code == NC_NOERR && strcmp(word, "end_indep_data") == 0)
            run->independent = false;
    }
    add(&run->answers, "\n");
    run->call++;
}
