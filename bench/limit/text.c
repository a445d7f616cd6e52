/* The text of a run, in blocks. */
#include "limit.h"
#include <unistd.h>

static char text[1 << 16];
static size_t text_len;

void say_all(void)
{
    for (size_t done = 0; done < text_len;) {
        ssize_t some = write(1, text + done, text_len - done);
        need(some > 0, "cannot print");
        done += some;
    }
    text_len = 0;
}

static void say_bytes(const char *bytes, size_t len)
{
    if (text_len + len > sizeof text)
        say_all();
    memcpy(text + text_len, bytes, len);
    text_len += len;
}

void say(const char *words)
{
    say_bytes(words, strlen(words));
}

void say_number(int64_t number)
{
    char digits[24], *front = digits + sizeof digits;
    uint64_t left = number < 0 ? -(uint64_t)number : (uint64_t)number;
    do
        *--front = '0' + left % 10;
    while ((left /= 10) > 0);
    if (number < 0)
        *--front = '-';
    say_bytes(front, digits + sizeof digits - front);
}

/* ' x' and hexadecimal digits. */
void say_bits(uint64_t bits, int digits)
{
    char word[20] = " x";
    for (int k = 0; k < digits; k++)
        word[2 + k] = "0123456789ABCDEF"[bits >> 4 * (digits - 1 - k) & 15];
    say_bytes(word, 2 + digits);
}

void say_start(uint32_t meetings)
{
    say("ranks ");
    say_number(ranks);
    say("\norder");
    for (uint32_t k = 0; k < meetings; k++) {
        say(" m");
        say_number(k);
    }
    say("\n");
}

void say_rank(int rank)
{
    say("rank ");
    say_number(rank);
    say("\n");
}

void say_call(uint32_t number, const char *call)
{
    say_number(number);
    say(" ");
    say(call);
    say(" ok");
}

void say_calls(uint32_t first, uint32_t count, const char *call)
{
    for (uint32_t k = 0; k < count; k++) {
        say_call(first + k, call);
        say("\n");
    }
}

void say_end_of_rank(void)
{
    say("pending 0\n");
}

void say_alike(uint32_t count, const char *call)
{
    say_start(count);
    for (int rank = 0; rank < ranks; rank++) {
        say_rank(rank);
        say_calls(0, count, call);
        say_end_of_rank();
    }
    say_dataset();
}
