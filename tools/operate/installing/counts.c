/* What a program that clang compiled with -fprofile-generate asks for at its end: what was counted is written to the file COUNTS.PID, where the environment
 * has COUNTS. It is LLVM's raw profile, version 10, which `llvm-profdata merge` reads; for tools/operate/install, since the kit has no such library. */
typedef unsigned char byte;
typedef unsigned long word;
#define HIDDEN __attribute__((visibility("hidden")))

extern byte __start___llvm_prf_data[] HIDDEN, __stop___llvm_prf_data[] HIDDEN;
extern byte __start___llvm_prf_cnts[] HIDDEN, __stop___llvm_prf_cnts[] HIDDEN;
extern byte __start___llvm_prf_names[] HIDDEN, __stop___llvm_prf_names[] HIDDEN;
extern const word __llvm_profile_raw_version HIDDEN;
int __llvm_profile_runtime;

int open(const char *, int, ...);
long write(int, const void *, word);
int close(int);
int getpid(void);
char *getenv(const char *);
int snprintf(char *, word, const char *, ...);

enum { WRITE_NEW = 01 | 0100 | 01000, ONE_FUNCTION = 64, VALUE_KINDS = 2 };

static void put(int file, const void *from, word size) {
    const byte *at = from;
    while (size > 0) {
        long done = write(file, at, size);
        if (done <= 0) return;
        at += done, size -= (word)done;
    }
}

__attribute__((destructor)) static void give(void) {
    static const byte magic[8] = {129, 'r', 'f', 'o', 'r', 'p', 'l', 255}, padding[8];
    const char *name = getenv("COUNTS");
    char path[4096];
    word data = (word)(__stop___llvm_prf_data - __start___llvm_prf_data);
    word counters = (word)(__stop___llvm_prf_cnts - __start___llvm_prf_cnts);
    word names = (word)(__stop___llvm_prf_names - __start___llvm_prf_names);
    /* Of bits, binary ids and tables of virtual functions there are none. */
    word head[15] = {__llvm_profile_raw_version, 0, data / ONE_FUNCTION, 0, counters / sizeof(word), 0, 0, 0, names,
                     (word)__start___llvm_prf_cnts - (word)__start___llvm_prf_data, 0, (word)__start___llvm_prf_names, 0, 0, VALUE_KINDS};
    int file;
    if (!name) return;
    snprintf(path, sizeof path, "%s.%d", name, getpid());
    file = open(path, WRITE_NEW, 0600);
    put(file, magic, sizeof magic);
    put(file, head, sizeof head);
    put(file, __start___llvm_prf_data, data);
    put(file, __start___llvm_prf_cnts, counters);
    put(file, __start___llvm_prf_names, names);
    put(file, padding, (8 - names % 8) % 8);
    close(file);
}
