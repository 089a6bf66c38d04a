/* Counts the bytes that a program asks the allocator for, all in all. It is loaded before the C library (LD_PRELOAD), and writes their number into the file that
   BYTES names when the program ends. For bench/figures. */
#include <fcntl.h>
#include <stddef.h>
#include <stdio.h>
#include <stdlib.h>
#include <unistd.h>

extern void *__libc_malloc(size_t size);
extern void *__libc_calloc(size_t count, size_t size);
extern void *__libc_realloc(void *old, size_t size);

static unsigned long long total;

void *malloc(size_t size) { return total += size, __libc_malloc(size); }
void *calloc(size_t count, size_t size) { return total += count * size, __libc_calloc(count, size); }
void *realloc(void *old, size_t size) { return total += size, __libc_realloc(old, size); }

__attribute__((destructor)) static void tell(void) {
    unsigned long long found = total; /* without what is asked for here */
    const char *path = getenv("BYTES");
    char digits[24];
    int file = path ? open(path, O_WRONLY | O_CREAT | O_TRUNC, 0666) : -1;
    if (file < 0) return;
    int size = snprintf(digits, sizeof digits, "%llu", found);
    if (write(file, digits, (size_t)size) != size) _exit(1);
    close(file);
}
