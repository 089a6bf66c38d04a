/* window GROUP frames|lines INPUT PROGRAM WORD..: runs the program, writes so many frames (or lines) of INPUT at once, waits for as many replies (or answers),
   and so on to the end of INPUT. Of lines the program says one first. It prints the seconds from the end of the first group to the end of the last one, and in
   microseconds how long a group waited: the median, and the 99th percentile. */
#define _DEFAULT_SOURCE
#include <stdint.h>
#include <stdio.h>
#include <stdlib.h>
#include <string.h>
#include <sys/wait.h>
#include <time.h>
#include <unistd.h>

enum { MOST = 1 << 24, ROOM = 1 << 20 };

static int is_lines;

static double now(void) {
    struct timespec time;
    clock_gettime(CLOCK_MONOTONIC, &time);
    return (double)time.tv_sec + (double)time.tv_nsec / 1e9;
}

/* How many bytes the frame or line takes that these begin with; 0 where its end isn't there. */
static size_t size_of(const unsigned char *at, size_t size) {
    if (is_lines) {
        const unsigned char *end = memchr(at, '\n', size);
        return end ? (size_t)(end - at) + 1 : 0;
    }
    if (size < 4) return 0;
    size_t whole = 4 + ((size_t)at[0] << 24 | (size_t)at[1] << 16 | (size_t)at[2] << 8 | (size_t)at[3]);
    return whole <= size ? whole : 0;
}

static void must(int is_good, const char *why) {
    if (!is_good) fprintf(stderr, "window: %s\n", why), exit(1);
}

static unsigned char came[ROOM];
static size_t kept;

/* Waits for so many answers. */
static void await(int from, int count) {
    while (count > 0) {
        ssize_t got = read(from, came + kept, sizeof came - kept);
        must(got > 0, "the program ended");
        kept += (size_t)got;
        size_t used = 0, size;
        while (count > 0 && (size = size_of(came + used, kept - used)) > 0) used += size, count--;
        memmove(came, came + used, kept -= used);
    }
}

static void send_all(int to, const unsigned char *at, size_t size) {
    while (size > 0) {
        ssize_t written = write(to, at, size);
        must(written > 0, "the program reads nothing");
        at += written, size -= (size_t)written;
    }
}

static int by_size(const void *a, const void *b) {
    double x = *(const double *)a, y = *(const double *)b;
    return x < y ? -1 : x > y;
}

int main(int count, char **words) {
    static unsigned char all[MOST];
    static double waits[MOST / 8];
    must(count > 4, "GROUP frames|lines INPUT PROGRAM WORD..");
    int group = atoi(words[1]), to[2], from[2], groups = 0, status;
    FILE *file = fopen(words[3], "rb");
    is_lines = strcmp(words[2], "lines") == 0;
    must(file && !pipe(to) && !pipe(from), words[3]);
    size_t size = fread(all, 1, sizeof all, file), at = 0;
    pid_t child = fork();
    if (child == 0) {
        dup2(to[0], 0), dup2(from[1], 1), close(to[0]), close(to[1]), close(from[0]), close(from[1]);
        execv(words[4], words + 4);
        _exit(127);
    }
    close(to[0]), close(from[1]);
    double begun = 0, since = 0;
    if (is_lines) await(from[0], 1);
    while (at < size) {
        size_t end = at;
        int sent = 0;
        while (sent < group && end < size) end += size_of(all + end, size - end), sent++;
        since = now();
        send_all(to[1], all + at, end - at);
        await(from[0], sent);
        waits[groups++] = now() - since;
        at = end;
        if (groups == 1) begun = now(); /* the first one waits for the store to be opened too */
    }
    double took = now() - begun;
    close(to[1]);
    waitpid(child, &status, 0);
    must(status == 0, "the program ended otherwise");
    qsort(waits, (size_t)groups, sizeof *waits, by_size);
    printf("%.6f %.1f %.1f\n", took, waits[groups / 2] * 1e6, waits[groups * 99 / 100] * 1e6);
    return 0;
}
