/* The allocator that the library is linked with (`ld --wrap`): it counts the blocks that the library has, and refuses those that it is told to. */
#include "library.h"

extern void *__real_malloc(size_t size);
extern void *__real_realloc(void *old, size_t size);
extern void __real_free(void *it);

long held;
bool was_refused;
static unsigned long left; /* allocations up to the one that is refused; 0: none is */

void refuse(unsigned long at) {
    left = at;
    was_refused = false;
}

static bool is_refused(void) {
    if (left == 0 || --left > 0) return false;
    return was_refused = true;
}

void *__wrap_malloc(size_t size) {
    void *it = is_refused() ? NULL : __real_malloc(size);
    if (it != NULL) held++;
    return it;
}

void *__wrap_realloc(void *old, size_t size) {
    void *it = is_refused() ? NULL : __real_realloc(old, size);
    if (it != NULL && old == NULL) held++;
    return it;
}

void __wrap_free(void *it) {
    if (it != NULL) held--;
    __real_free(it);
}

void *grow(void *old, size_t size) {
    void *it = __real_realloc(old, size);
    must(it != NULL, "the test has no memory");
    return it;
}

void give_back(void *it) { __real_free(it); }
