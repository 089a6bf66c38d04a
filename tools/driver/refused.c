/* Refuses the library in a driver, or in an orchestrator, one of its allocations: the REFUSED-th of the process, by this number in its environment.
   `tools/csi` links it by the linker's --wrap; the program's own allocations, Go's and SQLite's, are never refused. */
#include "tufayon.h"
#include <stdlib.h>

void *__real_malloc(size_t size);
void *__real_realloc(void *old, size_t size);

static long left;                    /* allocations of the library until the one that is refused; none is at 0 */
static _Thread_local bool is_inside; /* a call of the library is under way */

__attribute__((constructor)) static void start(void) {
    const char *which = getenv("REFUSED");
    if (which != NULL) left = atol(which);
}

static bool is_refused(void) { return is_inside && left > 0 && --left == 0; }

void *__wrap_malloc(size_t size) { return is_refused() ? NULL : __real_malloc(size); }
void *__wrap_realloc(void *old, size_t size) { return is_refused() ? NULL : __real_realloc(old, size); }

/* A call of the library, of which each allocation may be refused. */
#define WRAP(name, words, ...)                        \
    uint32_t __real_##name words;                     \
    uint32_t __wrap_##name words {                    \
        is_inside = true;                             \
        uint32_t ending = __real_##name(__VA_ARGS__); \
        is_inside = false;                            \
        return ending;                                \
    }

WRAP(tufayon_controller_new, (const uint8_t *config, size_t size, tufayon_plugin *plugin), config, size, plugin)
WRAP(tufayon_controller_from_record, (const uint8_t *config, size_t size, const uint8_t *record, size_t record_size, tufayon_plugin *plugin),
     config, size, record, record_size, plugin)
WRAP(tufayon_node_joined, (const uint8_t *id, size_t size, uint64_t session, tufayon_plugin *plugin), id, size, session, plugin)
WRAP(tufayon_node_joined_from_record,
     (const uint8_t *id, size_t size, uint64_t session, const uint8_t *record, size_t record_size, tufayon_plugin *plugin),
     id, size, session, record, record_size, plugin)
WRAP(tufayon_answer,
     (tufayon_plugin *plugin, const uint8_t *frame, size_t size, size_t *used, uint8_t *reply, size_t room, size_t *written),
     plugin, frame, size, used, reply, room, written)
WRAP(tufayon_changed, (tufayon_plugin *plugin, size_t place, uint64_t *key, uint8_t *value, size_t room, size_t *written),
     plugin, place, key, value, room, written)
WRAP(tufayon_orchestrator_open,
     (const uint8_t *config, size_t size, const uint8_t *record, size_t record_size, uint64_t session, tufayon_plugin *made),
     config, size, record, record_size, session, made)
/* What an orchestrator is asked ends with the same words. */
#define ROOM uint8_t *frame, size_t room, size_t *written, uint32_t *fault
WRAP(tufayon_create,
     (tufayon_plugin *made, const uint8_t *name, size_t size, uint64_t required, uint64_t limit, const uint8_t *ways, size_t ways_size, ROOM),
     made, name, size, required, limit, ways, ways_size, frame, room, written, fault)
WRAP(tufayon_use,
     (tufayon_plugin *made, const uint8_t *name, size_t size, const uint8_t *node, size_t node_size, const uint8_t *target, size_t target_size,
      const uint8_t *way, size_t way_size, bool readonly, ROOM),
     made, name, size, node, node_size, target, target_size, way, way_size, readonly, frame, room, written, fault)
WRAP(tufayon_stop,
     (tufayon_plugin *made, const uint8_t *name, size_t size, const uint8_t *node, size_t node_size, const uint8_t *target, size_t target_size, ROOM),
     made, name, size, node, node_size, target, target_size, frame, room, written, fault)
WRAP(tufayon_delete, (tufayon_plugin *made, const uint8_t *name, size_t size, ROOM), made, name, size, frame, room, written, fault)
WRAP(tufayon_timeout, (tufayon_plugin *made, const uint8_t *name, size_t size, ROOM), made, name, size, frame, room, written, fault)
WRAP(tufayon_deliver, (tufayon_plugin *made, const uint8_t *came, size_t size, size_t *used, ROOM), made, came, size, used, frame, room, written, fault)
WRAP(tufayon_orchestrator_lose, (tufayon_plugin *made, const uint8_t *node, size_t size, uint32_t *fault), made, node, size, fault)
