/* Loaded before the C library (LD_PRELOAD), it has each sync of a file take as many microseconds longer as SLOW_SYNC says: a slower disk. */
#define _GNU_SOURCE
#include <dlfcn.h>
#include <stdlib.h>
#include <time.h>

static int slowly(const char *name, int file) {
    const char *text = getenv("SLOW_SYNC");
    long more = text ? atol(text) : 0;
    struct timespec time = {more / 1000000, more % 1000000 * 1000};
    nanosleep(&time, NULL);
    int (*call)(int) = (int (*)(int))dlsym(RTLD_NEXT, name);
    return call(file);
}

int fsync(int file) { return slowly("fsync", file); }
int fdatasync(int file) { return slowly("fdatasync", file); }
