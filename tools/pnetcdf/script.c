/* The words and values of a script. */
#include "replay.h"

#include <ctype.h>
#include <errno.h>
#include <stdarg.h>
#include <stdio.h>
#include <stdlib.h>
#include <string.h>

void stop(int line, const char *format, ...)
{
    va_list rest;
    va_start(rest, format);
    fputs("ncreplay: ", stderr);
    if (line > 0)
        fprintf(stderr, "script line %d: ", line);
    vfprintf(stderr, format, rest);
    fputc('\n', stderr);
    va_end(rest);
    MPI_Abort(MPI_COMM_WORLD, 2);
    exit(2);
}

void *room(size_t count, size_t size)
{
    void *made = calloc(count > 0 ? count : 1, size);
    if (made == NULL)
        stop(0, "no memory is left");
    return made;
}

static char *read_file(const char *path)
{
    FILE *file = fopen(path, "rb");
    if (file == NULL)
        stop(0, "%s: %s", path, strerror(errno));
    size_t length = 0, most = 1 << 16, got;
    char *bytes = room(most, 1);
    while ((got = fread(bytes + length, 1, most - length - 1, file)) > 0) {
        length += got;
        if (most - length < 2) {
            most *= 2;
            bytes = realloc(bytes, most);
            if (bytes == NULL)
                stop(0, "no memory is left");
        }
    }
    if (ferror(file) || fclose(file) != 0)
        stop(0, "%s can't be read", path);
    bytes[length] = '\0';
    return bytes;
}

/* One character of a text, which stands for itself or is escaped; the reading place moves on. */
static char text_character(int line, char **from)
{
    char *at = *from;
    if (*at == '\0')
        stop(line, "bad text");
    *from = at + 1;
    if (*at != '\\')
        return *at;
    *from = at + 2;
    switch (at[1]) {
    case 'n': return '\n';
    case 't': return '\t';
    case '"': case '\\': return at[1];
    case 'x':
        if (isxdigit((unsigned char)at[2]) && isxdigit((unsigned char)at[3])) {
            char digits[3] = {at[2], at[3], '\0'};
            *from = at + 4;
            return (char)strtol(digits, NULL, 16);
        }
    }
    stop(line, "bad text");
}

/* Cuts the next word off; the text of a text is written over its spelling. */
static Word next_word(int line, char **from)
{
    Word word = {.bytes = *from};
    if (*word.bytes != '"') {
        word.length = strcspn(word.bytes, " \t\r");
        *from = word.bytes + word.length;
    } else {
        word.text = true;
        for (*from = word.bytes + 1; **from != '"'; word.length++)
            word.bytes[word.length] = text_character(line, from);
        ++*from;
    }
    if (**from != '\0')
        *(*from)++ = '\0';
    word.bytes[word.length] = '\0';
    return word;
}

static Line words_of(int number, char *bytes)
{
    Line line = {.number = number};
    int most = 0;
    for (;;) {
        bytes += strspn(bytes, " \t\r");
        if (*bytes == '\0' || (line.count == 0 && *bytes == '#'))
            return line;
        if (line.count == most) {
            most = most == 0 ? 8 : 2 * most;
            line.words = realloc(line.words, (size_t)most * sizeof *line.words);
            if (line.words == NULL)
                stop(0, "no memory is left");
        }
        line.words[line.count++] = next_word(number, &bytes);
    }
}

bool is_word(const Line *line, int at, const char *word)
{
    return at < line->count && !line->words[at].text && strcmp(line->words[at].bytes, word) == 0;
}

const char *word_at(const Line *line, int at)
{
    if (at >= line->count)
        stop(line->number, "missing word");
    if (line->words[at].text)
        stop(line->number, "bad text");
    return line->words[at].bytes;
}

static long long size_in(const Line *line, const char **from)
{
    char *after;
    errno = 0;
    long long size = strtoll(*from, &after, 10);
    if (!isdigit((unsigned char)**from) || errno != 0)
        stop(line->number, "bad number");
    *from = after;
    return size;
}

long long size_of_word(const Line *line, int at)
{
    const char *word = word_at(line, at);
    long long size = size_in(line, &word);
    if (*word != '\0')
        stop(line->number, "bad number");
    return size;
}

int list_of_word(const Line *line, int at, MPI_Offset *list, int most)
{
    const char *word = word_at(line, at);
    int count = 0;
    if (*word++ != '[')
        stop(line->number, "bad number");
    while (*word != ']') {
        if (count == most)
            stop(line->number, "a list that is too long");
        list[count++] = size_in(line, &word);
        if (*word == ',')
            word++;
        else if (*word != ']')
            stop(line->number, "bad number");
    }
    return count;
}

static void read_line(Script *script, Line line, bool *in_data)
{
    if (is_word(&line, 0, "ranks"))
        script->ranks = (int)size_of_word(&line, 1);
    else if (!*in_data && is_word(&line, 0, "fill"))
        script->filled = true;
    else if (!*in_data && is_word(&line, 0, "data"))
        *in_data = true;
    else if (*in_data)
        script->call[script->calls++] = line;
    else
        script->definition[script->definitions++] = line;
}

Script *read_script(const char *path)
{
    Script *script = room(1, sizeof *script);
    char *bytes = read_file(path), *next;
    size_t lines = 1;
    bool headed = false, in_data = false;
    for (const char *c = bytes; *c; c++)
        lines += *c == '\n';
    script->definition = room(lines, sizeof(Line));
    script->call = room(lines, sizeof(Line));
    for (int number = 1; bytes != NULL; number++, bytes = next) {
        next = strchr(bytes, '\n');
        if (next != NULL)
            *next++ = '\0';
        Line line = words_of(number, bytes);
        if (line.count == 0)
            continue;
        if (in_data && is_word(&line, 0, "end"))
            return script;
        if (headed) {
            read_line(script, line, &in_data);
            continue;
        }
        headed = true;
        script->fresh = is_word(&line, 0, "create");
        if (script->fresh)
            script->version = (int)size_of_word(&line, 1);
        else if (!is_word(&line, 0, "open"))
            stop(number, "no head");
    }
    stop(0, "no end");
}

/* ---- values */

static __int128 value_in(const Line *line, int at, bool pattern)
{
    const char *word = word_at(line, at);
    bool negative = !pattern && *word == '-';
    __int128 value = 0;
    if (negative || pattern)
        word++;
    if (*word == '\0' || strlen(word) > 20)
        stop(line->number, "bad number");
    for (; *word; word++) {
        if (pattern ? !isxdigit((unsigned char)*word) : !isdigit((unsigned char)*word))
            stop(line->number, "bad number");
        int digit = isdigit((unsigned char)*word) ? *word - '0' : toupper((unsigned char)*word) - 'A' + 10;
        value = value * (pattern ? 16 : 10) + digit;
    }
    return negative ? -value : value;
}

static Values characters(const Word *word)
{
    Values values = {CHARACTERS, word->length, room(word->length, sizeof(__int128))};
    for (size_t i = 0; i < word->length; i++)
        values.of[i] = (unsigned char)word->bytes[i];
    return values;
}

static Values sequence(const Line *line, int at, bool patterns)
{
    size_t count = (size_t)size_of_word(line, at + 1);
    if (count > 1 << 24)
        stop(line->number, "limit of elements");
    __int128 first = value_in(line, at + 2, patterns), by = value_in(line, at + 3, patterns);
    Values values = {patterns ? PATTERNS : NUMBERS, count, room(count, sizeof(__int128))};
    for (size_t i = 0; i < count; i++)
        values.of[i] = first + (__int128)i * by;
    return values;
}

Values read_values(const Line *line, int at)
{
    if (at < line->count && line->words[at].text)
        return characters(&line->words[at]);
    if (is_word(line, at, "seq") || is_word(line, at, "seqx"))
        return sequence(line, at, is_word(line, at, "seqx"));
    size_t count = at < line->count ? (size_t)(line->count - at) : 0;
    bool patterns = count > 0 && line->words[at].bytes[0] == 'x';
    Values values = {patterns ? PATTERNS : NUMBERS, count, room(count, sizeof(__int128))};
    for (size_t i = 0; i < count; i++) {
        if ((word_at(line, at + (int)i)[0] == 'x') != patterns)
            stop(line->number, "bad number");
        values.of[i] = value_in(line, at + (int)i, patterns);
    }
    return values;
}
