/* Refuses a program its allocations, each in a process of its own. It is loaded before the C library (LD_PRELOAD) and counts the calls of
   malloc, calloc and realloc that the program itself makes. At each REFUSE-th of them the process forks. The child is answered with no
   memory and runs to its end, in a copy of the folder that lies in it under the allocation's number, so that what it writes is its own. The
   process waits for it, tells to the descriptor REFUSALS what came of it, and goes on with memory: nothing is run twice from the start. At its
   end it tells how many allocations there were; with a REFUSE of 0 it does nothing else. `refusals` reads what is told. */
#define _GNU_SOURCE
#include <dirent.h>
#include <errno.h>
#include <fcntl.h>
#include <limits.h>
#include <link.h>
#include <stdarg.h>
#include <stddef.h>
#include <stdint.h>
#include <stdio.h>
#include <stdlib.h>
#include <string.h>
#include <sys/sendfile.h>
#include <sys/stat.h>
#include <sys/wait.h>
#include <unistd.h>

enum { CALLS = 511, FILES = 64, SECONDS = 600 };

/* What is told of a refusal. */
struct refusal {
    uint64_t number; /* of the allocation, from 1; at the end 0 */
    uint64_t status; /* how the child ended, as wait says it; at the end how many allocations there were */
    struct {
        uint64_t place, callee; /* behind the call, and what was called, counted from the program's front */
    } calls[CALLS];             /* the calls that may have been under way, innermost first; then zeros */
};

extern void *__libc_malloc(size_t size);
extern void *__libc_calloc(size_t count, size_t size);
extern void *__libc_realloc(void *old, size_t size);
extern void *__libc_stack_end;

static int refusals = -1;           /* where refusals are told; none here, and none in a child */
static uint64_t made, every;        /* allocations so far, and how many of them there are to a refusal */
static uintptr_t front, begin, end; /* the program's front, and where its code lies */
static char left[PATH_MAX];         /* in a child: the folder of which it is in a copy */

/* What the script takes for a wrong end of the run. */
static void fail(const char *why) {
    perror(why);
    _exit(99);
}

static int find_program(struct dl_phdr_info *info, size_t size, void *none) {
    (void)size, (void)none;
    front = info->dlpi_addr;
    for (int i = 0; i < info->dlpi_phnum; i++) {
        const ElfW(Phdr) *part = &info->dlpi_phdr[i];
        if (part->p_type == PT_LOAD && (part->p_flags & PF_X)) {
            begin = front + part->p_vaddr;
            end = begin + part->p_memsz;
        }
    }
    return 1; /* the first one is the program */
}

__attribute__((constructor)) static void start(void) {
    const char *to = getenv("REFUSALS"), *each = getenv("REFUSE");
    if (to == NULL || each == NULL) return;
    dl_iterate_phdr(find_program, NULL);
    every = strtoull(each, NULL, 10);
    refusals = atoi(to);
}

static int is_code(uintptr_t place) { return begin + 5 <= place && place < end; }

/* There is no table for unwinding: each word of the stack that points behind a call is noted, with what that calls, and `refusals` sees
   which of them are joined to one another. */
static void note_calls(struct refusal *refusal, const uintptr_t *word) {
    size_t found = 0;
    for (; word < (uintptr_t *)__libc_stack_end && found < CALLS; word++) {
        if (!is_code(*word) || *(const uint8_t *)(*word - 5) != 0xe8) continue;
        int32_t far;
        memcpy(&far, (const void *)(*word - 4), sizeof far);
        refusal->calls[found].place = *word - front;
        refusal->calls[found++].callee = *word + (intptr_t)far - front;
    }
}

/* Copies a file to this folder; and wherever it is open, the copy is, at the place to which it was read or written. */
static void go_over(int from, int folder, const char *name) {
    struct stat of, it;
    int to = openat(folder, name, O_WRONLY | O_CREAT | O_EXCL, 0600);
    if (to < 0 || fstat(from, &of) != 0) fail(name);
    for (off_t at = 0; at < of.st_size;)
        if (sendfile(to, from, &at, (size_t)(of.st_size - at)) <= 0) fail(name);
    close(to);
    for (int file = 0; file < FILES; file++) {
        if (file == from || fstat(file, &it) != 0 || it.st_dev != of.st_dev || it.st_ino != of.st_ino) continue;
        int copy = openat(folder, name, fcntl(file, F_GETFL) & (O_ACCMODE | O_APPEND));
        if (copy < 0 || lseek(copy, lseek(file, 0, SEEK_CUR), SEEK_SET) < 0 || dup2(copy, file) < 0) fail(name);
        close(copy);
    }
}

static void move_to_copy(uint64_t number) {
    char name[24];
    snprintf(name, sizeof name, "%ju", (uintmax_t)number);
    DIR *here = opendir(".");
    int folder = mkdir(name, 0700) == 0 ? openat(AT_FDCWD, name, O_RDONLY | O_DIRECTORY) : -1;
    if (here == NULL || folder < 0) fail(name);
    for (struct dirent *entry; (entry = readdir(here)) != NULL;) {
        if (entry->d_type != DT_REG) continue;
        int from = openat(dirfd(here), entry->d_name, O_RDONLY);
        if (from < 0) fail(entry->d_name);
        go_over(from, folder, entry->d_name);
        close(from);
    }
    closedir(here);
    if (getcwd(left, sizeof left) == NULL || fchdir(folder) != 0) fail(name);
    close(folder);
}

/* A child that knows its files by the folder that it left opens those of the copy. */
int open(const char *path, int flags, ...) {
    mode_t mode = 0;
    if (flags & O_CREAT) {
        va_list rest;
        va_start(rest, flags);
        mode = va_arg(rest, mode_t);
        va_end(rest);
    }
    size_t size = strlen(left);
    if (size > 0 && strncmp(path, left, size) == 0 && path[size] == '/' && strchr(path + size + 1, '/') == NULL) path += size + 1;
    return openat(AT_FDCWD, path, flags, mode);
}

static int is_refused(uintptr_t caller) {
    if (refusals < 0 || !is_code(caller)) return 0;
    made++;
    if (every == 0 || made % every != 0) return 0;
    pid_t child = fork();
    if (child < 0) fail("fork");
    if (child == 0) {
        close(refusals);
        refusals = -1;
        alarm(SECONDS);
        move_to_copy(made);
        errno = ENOMEM;
        return 1;
    }
    struct refusal refusal = {.number = made};
    note_calls(&refusal, (uintptr_t *)__builtin_frame_address(0));
    int status;
    if (waitpid(child, &status, 0) != child) fail("wait");
    refusal.status = (uint64_t)status;
    if (write(refusals, &refusal, sizeof refusal) != sizeof refusal) fail("write");
    return 0;
}

__attribute__((destructor)) static void tell_how_many(void) {
    struct refusal all = {.status = made};
    if (refusals >= 0 && write(refusals, &all, sizeof all) != sizeof all) fail("write");
}

#define CALLER ((uintptr_t)__builtin_return_address(0))

void *malloc(size_t size) { return is_refused(CALLER) ? NULL : __libc_malloc(size); }

void *calloc(size_t count, size_t size) { return is_refused(CALLER) ? NULL : __libc_calloc(count, size); }

void *realloc(void *old, size_t size) { return is_refused(CALLER) ? NULL : __libc_realloc(old, size); }
