/* Runs a command once and prints what it took.

     measure SECONDS PARTS DATASET INPUT OUTPUT COMMAND WORD..     PARTS: the library made of parts.c

   One line: the status; microseconds from start to end, to the opening of the dataset, and to the end of the last call on it; microseconds of
   processor (user and system); and the greatest size in memory in KiB. Or `past` where the command did not end in SECONDS, and was ended. It
   is a program of its own since a process begins with the peak of the one that forked it, and that of this one is small. */
#define _GNU_SOURCE
#include "parts.h"
#include <fcntl.h>
#include <signal.h>
#include <stdio.h>
#include <stdlib.h>
#include <sys/mman.h>
#include <sys/resource.h>
#include <sys/time.h>
#include <sys/wait.h>
#include <unistd.h>

static long micros(struct timeval at)
{
    return at.tv_sec * 1000000L + at.tv_usec;
}

/* Microseconds from the start to what was noted; 0 where nothing was. */
static long since(long start, long noted)
{
    return noted == 0 ? 0 : (noted - start) / 1000;
}

static void take(int number, const char *path, int flags)
{
    int file = open(path, flags, 0666);
    if (file < 0 || dup2(file, number) < 0)
        _exit(126);
    close(file);
}

/* An open file of one `struct parts`. */
static int noted_file(void)
{
    int file = memfd_create("parts", 0);
    if (file < 0 || ftruncate(file, sizeof(struct parts)) < 0)
        exit(1);
    return file;
}

static void run(char **words, int noted)
{
    char number[16];
    sprintf(number, "%d", noted);
    setenv("PARTS", number, 1);
    setenv("PARTS_DATASET", words[3], 1);
    setenv("LD_PRELOAD", words[2], 1);
    take(0, words[4], O_RDONLY);
    take(1, words[5], O_WRONLY | O_CREAT | O_TRUNC);
    execv(words[6], words + 6);
    _exit(127);
}

int main(int count, char **words)
{
    struct rusage used;
    sigset_t ended;
    int status;
    if (count < 7)
        return 2;
    struct timespec most = {.tv_sec = atoi(words[1])};
    int noted = noted_file();
    struct parts *parts = mmap(NULL, sizeof *parts, PROT_READ, MAP_SHARED, noted, 0);
    sigemptyset(&ended);
    sigaddset(&ended, SIGCHLD);
    sigprocmask(SIG_BLOCK, &ended, NULL);
    long start = nanoseconds();
    pid_t child = fork();
    if (child < 0 || parts == MAP_FAILED)
        return 1;
    if (child == 0) {
        sigprocmask(SIG_UNBLOCK, &ended, NULL);
        run(words, noted);
    }
    int is_past = sigtimedwait(&ended, NULL, &most) < 0;
    if (is_past)
        kill(child, SIGKILL);
    if (wait4(child, &status, 0, &used) < 0)
        return 1;
    long end = nanoseconds();
    if (is_past) {
        printf("past\n");
        return 0;
    }
    printf("%d %ld %ld %ld %ld %ld\n", WIFEXITED(status) ? WEXITSTATUS(status) : 128 + WTERMSIG(status), since(start, end),
           since(start, parts->opened), since(start, parts->last), micros(used.ru_utime) + micros(used.ru_stime), used.ru_maxrss);
    return 0;
}
