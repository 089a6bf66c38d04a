/* A plugin in C: the replies and the file of `csi-replay controller DB CONFIG` and `csi-replay node DB ID`, with messages of its own. All frames that are
 * there together are answered, what they changed is committed in one transaction, and then their replies are sent.
 *     plugin controller DB CONFIG < FRAMES > REPLIES        plugin node DB ID < FRAMES > REPLIES */
#include "store.h"

static uint8_t replies[1 << 16]; /* those that wait */
static size_t waiting;

/* Commits what waits, and then sends its replies. A refused commit ends the program, and so nothing is sent. */
static void settle(void) {
    commit();
    must(write(1, replies, waiting) == (ssize_t)waiting, "no output");
    waiting = 0;
}

int main(int count, char **words) {
    static uint8_t bytes[1 << 16], config[1 << 16], *name, *record;
    size_t have = 0, at = 0, used, written, name_size, size;
    int controller = count == 4 && strcmp(words[1], "controller") == 0;
    uint32_t ending;
    FILE *file = controller ? fopen(words[3], "rb") : NULL;
    must(count == 4 && (!controller || file), "controller DB CONFIG, or node DB ID");
    name = controller ? config : (uint8_t *)words[3];
    name_size = controller ? fread(config, 1, sizeof config, file) : strlen(words[3]);
    open_store(words[2]);
    record = load(&size);
    ending = size == 0 ? (controller ? tufayon_controller_new : tufayon_node_new)(name, name_size, &held)
                       : (controller ? tufayon_controller_from_record : tufayon_node_from_record)(name, name_size, record, size, &held);
    must(ending == TUFAYON_DONE || ending == TUFAYON_RENEWED, "no record of this plugin");
    if (ending == TUFAYON_RENEWED) begin(), run("DELETE FROM parts");
    put_changes();
    commit();
    for (ssize_t got = 1; got != 0;) {
        /* Who attaches, stages or mounts something on a call settles before and behind it. */
        ending = tufayon_answer(&held, bytes + at, have - at, &used, replies + waiting, sizeof replies - waiting, &written);
        if (ending == TUFAYON_DONE) {
            put_changes();
            at += used, waiting += written;
            if (sizeof replies - waiting >= TUFAYON_REPLY_ROOM) continue;
        }
        settle();
        if (ending == TUFAYON_DONE) continue;
        must(ending == TUFAYON_SHORT, ending == TUFAYON_BAD_FRAME ? "no frame" : "memory");
        memmove(bytes, bytes + at, have -= at), at = 0; /* more of the input, behind what is left */
        must((got = read(0, bytes + have, sizeof bytes - have)) >= 0, "no input");
        have += (size_t)got;
    }
    free(record);
    close_store();
    return have == 0 ? 0 : 3;
}
