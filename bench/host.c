/* host AT_ONCE COMMANDS NAME:TO:FROM ..: carries out the lines of COMMANDS, so many at a time, between an orchestrator, which is the first of these parts, and its
   plugins: TO and FROM are the numbers of the files by which a part is written to and read. What an orchestrator sends is handed to its plugin, and what a plugin replies to
   the orchestrator; a line that sends nothing ends a command. What came together is handed on together. It prints the seconds that it took, and those of a processor. */
#define _GNU_SOURCE
#include <fcntl.h>
#include <poll.h>
#include <stdio.h>
#include <stdlib.h>
#include <string.h>
#include <sys/resource.h>
#include <time.h>
#include <unistd.h>

enum { PARTS = 72, ROOM = 1 << 20 };

struct part {
    const char *name;
    int to, from;
    size_t came, left, sent; /* bytes that were read and are not used; bytes that are to be written, and how many of them are */
    unsigned char *in, *out;
};

static struct part parts[PARTS];
static int count;

static void must(int is_good, const char *why) {
    if (!is_good) fprintf(stderr, "host: %s\n", why), exit(1);
}

static double seconds(struct timeval time) { return (double)time.tv_sec + (double)time.tv_usec / 1e6; }

static double now(void) {
    struct timespec time;
    clock_gettime(CLOCK_MONOTONIC, &time);
    return (double)time.tv_sec + (double)time.tv_nsec / 1e9;
}

static void put(struct part *part, const void *bytes, size_t size) {
    must(part->left + size <= ROOM, "too much waits");
    memcpy(part->out + part->left, bytes, size);
    part->left += size;
}

/* Writes what the part takes. */
static void flush(struct part *part) {
    if (part->left == part->sent) return;
    ssize_t written = write(part->to, part->out + part->sent, part->left - part->sent);
    if (written > 0) part->sent += (size_t)written;
    if (part->sent == part->left) part->sent = part->left = 0;
}

static int value(unsigned char digit) { return digit <= '9' ? digit - '0' : digit - 'a' + 10; }

/* What stands in a line behind these bytes, up to a quote. */
static const char *behind(const char *line, const char *key, size_t *size) {
    const char *at = strstr(line, key);
    if (!at) return NULL;
    at += strlen(key);
    *size = strcspn(at, "\"");
    return at;
}

/* Hands a frame of a line to its plugin; or it sends none, and a command ended. */
static int ends(const char *line) {
    size_t size = 0, length = 0;
    const char *hex = behind(line, "\"frame\":\"", &size), *name = behind(line, "\"plugin\":\"", &length);
    if (!hex) {
        must(strstr(line, "\"goal\":null") && strstr(line, "\"outcome\":\"taken\""), line);
        return 1;
    }
    struct part *part = parts + 1;
    while (part < parts + count && (strlen(part->name) != length || memcmp(part->name, name, length) != 0)) part++;
    must(part < parts + count && size % 2 == 0 && size < 4096, line);
    unsigned char frame[2048];
    for (size_t at = 0; at < size; at += 2) frame[at / 2] = (unsigned char)(value((unsigned char)hex[at]) << 4 | value((unsigned char)hex[at + 1]));
    put(part, frame, size / 2);
    return 0;
}

/* The lines of an orchestrator: how many commands they end. */
static int take_lines(struct part *part) {
    int ended = 0;
    unsigned char *at = part->in, *end;
    for (; (end = memchr(at, '\n', part->came - (size_t)(at - part->in))); at = end + 1) *end = 0, ended += ends((const char *)at);
    memmove(part->in, at, part->came -= (size_t)(at - part->in));
    return ended;
}

/* The frames of a plugin, which become lines. */
static void take_frames(struct part *part) {
    static const char digits[] = "0123456789abcdef";
    unsigned char *at = part->in, *end = part->in + part->came;
    while (end - at >= 4) {
        size_t size = 4 + ((size_t)at[0] << 24 | (size_t)at[1] << 16 | (size_t)at[2] << 8 | (size_t)at[3]);
        if ((size_t)(end - at) < size) break;
        char line[4096];
        size_t used = (size_t)sprintf(line, "{\"reply\":\"");
        must(size < 2000, "a reply that is too long");
        for (size_t byte = 0; byte < size; byte++) line[used++] = digits[at[byte] >> 4], line[used++] = digits[at[byte] & 15];
        memcpy(line + used, "\"}\n", 3);
        put(parts, line, used + 3);
        at += size;
    }
    memmove(part->in, at, part->came = (size_t)(end - at));
}

int main(int words, char **word) {
    must(words > 4 && words - 3 <= PARTS, "AT_ONCE COMMANDS NAME:TO:FROM ..");
    FILE *file = fopen(word[2], "r");
    must(file != NULL, word[2]);
    for (int at = 3; at < words; at++) {
        struct part *part = parts + count++;
        char *from = strrchr(word[at], ':');
        must(from != NULL, word[at]);
        part->from = atoi(from + 1), *from = 0;
        char *to = strrchr(word[at], ':');
        must(to != NULL, word[at]);
        part->to = atoi(to + 1), *to = 0;
        part->name = word[at];
        must((part->in = malloc(ROOM)) && (part->out = malloc(ROOM)), "memory");
        must(fcntl(part->to, F_SETFL, O_NONBLOCK) == 0, "no part");
    }
    char line[1024];
    int under_way = 0, at_once = atoi(word[1]), is_more = 1;
    double begun = now();
    for (;;) {
        while (is_more && under_way < at_once) {
            if ((is_more = fgets(line, sizeof line, file) != NULL)) put(parts, line, strlen(line)), under_way++;
        }
        if (under_way == 0) break;
        struct pollfd asked[2 * PARTS];
        for (int at = 0; at < count; at++) {
            flush(parts + at);
            asked[at] = (struct pollfd){parts[at].from, POLLIN, 0};
            asked[count + at] = (struct pollfd){parts[at].left > 0 ? parts[at].to : -1, POLLOUT, 0};
        }
        must(poll(asked, (nfds_t)(2 * count), -1) > 0, "poll");
        for (int at = 0; at < count; at++) {
            struct part *part = parts + at;
            if (!asked[at].revents) continue;
            ssize_t got = read(part->from, part->in + part->came, ROOM - part->came);
            must(got > 0, "a part ended");
            part->came += (size_t)got;
            if (at == 0) under_way -= take_lines(part);
            else take_frames(part);
        }
    }
    struct rusage used;
    getrusage(RUSAGE_SELF, &used);
    printf("%.6f %.6f\n", now() - begun, seconds(used.ru_utime) + seconds(used.ru_stime));
    return 0;
}
