/* The endings that the header says of each call, and those that it had. */
#include "library.h"

#define IS(ending) (1u << TUFAYON_##ending)
#define OF_NEW (IS(DONE) | IS(NO_MEMORY) | IS(FULL) | IS(BAD_NAME))
#define OF_RECORD (OF_NEW | IS(BAD_RECORD) | IS(RENEWED))
#define OF_REQUEST (IS(DONE) | IS(NO_MEMORY) | IS(EMPTY) | IS(OTHER_KIND))
#define OF_COMMAND (OF_REQUEST | IS(BAD_NAME) | IS(NO_ROOM) | IS(REFUSED))

/* Each call of the header that answers, and the endings that it says of it. */
static const struct {
    const char *name;
    unsigned endings;
} CALLS[] = {
    {"tufayon_controller_new", OF_NEW},
    {"tufayon_node_new", OF_NEW},
    {"tufayon_controller_from_record", OF_RECORD},
    {"tufayon_node_from_record", OF_RECORD},
    {"tufayon_answer", OF_REQUEST | IS(SHORT) | IS(BAD_FRAME) | IS(NO_ROOM)},
    {"tufayon_changed", IS(DONE) | IS(NO_MEMORY) | IS(EMPTY) | IS(NO_ROOM) | IS(TAKE_OUT) | IS(NO_MORE)},
    {"tufayon_record", IS(DONE) | IS(NO_MEMORY) | IS(EMPTY) | IS(NO_ROOM)},
    {"tufayon_orchestrator_new", OF_NEW},
    {"tufayon_orchestrator_from_record", OF_NEW | IS(BAD_RECORD) | IS(REFUSED) | IS(NODE_IN_USE)},
    {"tufayon_create", OF_COMMAND},
    {"tufayon_use", OF_COMMAND | IS(MET)},
    {"tufayon_stop", OF_COMMAND},
    {"tufayon_delete", OF_COMMAND | IS(MET)},
    {"tufayon_timeout", OF_COMMAND},
    {"tufayon_deliver", OF_REQUEST | IS(SHORT) | IS(BAD_FRAME) | IS(NO_ROOM) | IS(IGNORED) | IS(OLDER_STORE)}, /* and REFUSED, after 2^64 - 1 calls */
    {"tufayon_orchestrator_lose", OF_REQUEST | IS(BAD_NAME) | IS(REFUSED)},
    {"tufayon_exists", OF_REQUEST | IS(BAD_NAME)},
    {"tufayon_attached", OF_REQUEST | IS(BAD_NAME)},
    {"tufayon_staged", OF_REQUEST | IS(BAD_NAME)},
    {"tufayon_published", OF_REQUEST | IS(BAD_NAME)},
    {"tufayon_goal", OF_REQUEST | IS(BAD_NAME) | IS(NO_ROOM)},
    {"tufayon_volume", IS(DONE) | IS(EMPTY) | IS(OTHER_KIND) | IS(NO_ROOM) | IS(NO_MORE)},
    {"tufayon_node_joined", OF_NEW},
    {"tufayon_node_joined_from_record", OF_RECORD | IS(EARLIER_SESSION)},
    {"tufayon_orchestrator_open", OF_NEW | IS(BAD_RECORD) | IS(REFUSED) | IS(NODE_IN_USE)},
    {"tufayon_raise", OF_REQUEST},
    {"tufayon_recovery_session", OF_REQUEST | IS(REFUSED)},
    {"tufayon_orchestrator_recovered",
     OF_NEW | IS(EMPTY) | IS(OTHER_KIND) | IS(REFUSED) | IS(SAME_NODE) | IS(NOT_LATER) | IS(DISAGREES) | IS(BAD_ROW)},
};
static unsigned seen_of[sizeof CALLS / sizeof *CALLS]; /* the endings that each of them had so far */

void see(size_t place, uint32_t ending) {
    must(ending <= TUFAYON_BAD_ROW, "a call has an ending that the header doesn't have");
    seen_of[place] |= 1u << ending;
}

/* The version is the header's. In too little room nothing is written, and how many bytes it has is said. */
static void version(void) {
    static const char text[] = TUFAYON_VERSION;
    enum { COUNT = sizeof text - 1 };
    for (size_t room = 0; room <= COUNT + 1; room++) {
        uint8_t bytes[COUNT + 1];
        size_t written = 77;
        snprintf(doing, sizeof doing, "the version, in %zu bytes", room);
        memset(bytes, 0xaa, sizeof bytes);
        must(tufayon_version(bytes, room, &written) == (room < COUNT ? TUFAYON_NO_ROOM : TUFAYON_DONE), "it ends otherwise");
        must(written == COUNT, "it has another length");
        for (size_t at = 0; at < sizeof bytes; at++)
            must(bytes[at] == (room >= COUNT && at < COUNT ? (uint8_t)text[at] : 0xaa), "it is another text, or more is written");
    }
}

void test_endings(void) {
    version();
    for (size_t at = 0; at < sizeof CALLS / sizeof *CALLS; at++) {
        snprintf(doing, sizeof doing, "%s, with endings %#x", CALLS[at].name, seen_of[at]);
        must((seen_of[at] & ~CALLS[at].endings) == 0, "a call has an ending that the header doesn't say of it");
        must(seen_of[at] == CALLS[at].endings, "a call was never seen to end in one of the ways that the header says");
    }
}
