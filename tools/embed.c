/* For `tools/embed`: `count FILE` says how many whole frames a file begins with, and how many bytes they take; `killed WHOLE JOINED` compares the replies
 * of a program that wasn't killed with those of one that was, and says how many of these were stale; `answer CONFIG FILE` answers a file's frames by a new
 * controller, one call each, writes the replies to standard output, and says on standard error how many nanoseconds a frame took. */
#define _POSIX_C_SOURCE 199309L /* clock_gettime */
#include "tufayon.h"
#include <stdio.h>
#include <stdlib.h>
#include <string.h>
#include <time.h>

static uint8_t *read_all(const char *name, size_t *size) {
    FILE *file = fopen(name, "rb");
    uint8_t *bytes = malloc(1 << 28);
    if (!file || !bytes) exit(2);
    *size = fread(bytes, 1, 1 << 28, file);
    fclose(file);
    return bytes;
}

static size_t size_at(const uint8_t *bytes) { return 4 + ((size_t)bytes[0] << 24) + ((size_t)bytes[1] << 16) + ((size_t)bytes[2] << 8) + bytes[3]; }

/* Whether a reply is that of another to the same call, and stale. */
static int is_late(const uint8_t *reply, const uint8_t *other) {
    size_t at = reply[22] == 0 ? 23 : 24 + (size_t)reply[23];
    return memcmp(reply + 4, other + 4, at - 4) == 0 && reply[at] == 10 && memcmp(reply + at + 9, "\5stale", 6) == 0;
}

/* The replies are the same but for those that are stale: how many, or -1. A group may have been committed of which nothing was said; of its calls, which
 * are sent again, the last one of a volume gets its reply, and those before it are stale. */
static long late_ones(const uint8_t *whole, size_t whole_size, const uint8_t *joined, size_t joined_size) {
    size_t at = 0, there = 0;
    long late = 0;
    for (; at < whole_size && there < joined_size; at += size_at(whole + at), there += size_at(joined + there)) {
        if (size_at(whole + at) == size_at(joined + there) && memcmp(whole + at, joined + there, size_at(whole + at)) == 0) continue;
        if (!is_late(joined + there, whole + at)) return -1;
        late++;
    }
    return at == whole_size && there == joined_size ? late : -1;
}

static double now(void) {
    struct timespec time;
    clock_gettime(CLOCK_MONOTONIC, &time);
    return (double)time.tv_sec * 1e9 + (double)time.tv_nsec;
}

int main(int count, char **words) {
    size_t size, at = 0, frames = 0;
    if (count == 3 && strcmp(words[1], "count") == 0) {
        uint8_t *bytes = read_all(words[2], &size);
        for (; size - at >= 4 && size - at >= size_at(bytes + at); frames++) at += size_at(bytes + at);
        printf("%zu %zu\n", frames, at);
    } else if (count == 4 && strcmp(words[1], "killed") == 0) {
        size_t other_size;
        uint8_t *whole = read_all(words[2], &size), *joined = read_all(words[3], &other_size);
        long late = late_ones(whole, size, joined, other_size);
        printf("%ld\n", late);
        return late < 0;
    } else if (count == 4 && strcmp(words[1], "answer") == 0) {
        size_t config_size, used, written, out = 0;
        uint8_t *config = read_all(words[2], &config_size), *bytes = read_all(words[3], &size), *replies = malloc(1 << 28);
        tufayon_plugin plugin = {0};
        double from;
        if (!replies) return 2;
        memset(replies, 1, 1 << 28); /* no page is new while it counts */
        if (tufayon_controller_new(config, config_size, &plugin) != TUFAYON_DONE) return 1;
        from = now();
        for (; at < size; frames++, at += used, out += written)
            if (tufayon_answer(&plugin, bytes + at, size_at(bytes + at), &used, replies + out, TUFAYON_REPLY_ROOM, &written) != TUFAYON_DONE) return 1;
        fprintf(stderr, "%.1f\n", (now() - from) / (double)frames);
        fwrite(replies, 1, out, stdout);
        tufayon_free(&plugin);
    } else return 2;
    return 0;
}
