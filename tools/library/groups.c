/* Several frames, whose changes are put into the store together: include/tufayon.h, "Several at once". */
#include "library.h"

#define CONFIG "{\"greatest\":1000,\"nodes\":[{\"id\":\"n1\",\"slots\":4}]}"
#define V(last) "1 live \"v\" 10 block/1 ; " last
#define W(state, last) "2 " state " \"w\" 10 block/1 ; ; " last
enum { FRAMES = 6, ROOM = 1 << 10 };

/* Each frame with its reply, and what the store has once it and those before it are committed. */
static const struct {
    const char *call, *reply, *store[4];
} STEPS[FRAMES] = {
    {"1.1 controller CreateVolume \"v\" 10 0 block/1", "1.1 controller CreateVolume reply 0 1 \"\"", {"head 2 1", V("; 1.1 CreateVolume 0 1 \"\"")}},
    {"1.2 controller CreateVolume \"w\" 10 0 block/1", "1.2 controller CreateVolume reply 0 2 \"\"",
     {"head 3 1", V("; 1.1 CreateVolume 0 1 \"\""), W("live", "1.2 CreateVolume 0 2 \"\"")}},
    {"1.3 controller ControllerPublishVolume 1 \"n1\" block/1 rw", "1.3 controller ControllerPublishVolume reply 0 0 \"\"",
     {"head 3 1", V("\"n1\" block/1 rw ; 1.3 ControllerPublishVolume 0 0 \"\""), W("live", "1.2 CreateVolume 0 2 \"\"")}},
    {"1.4 controller DeleteVolume 2", "1.4 controller DeleteVolume reply 0 0 \"\"",
     {"head 3 1", V("\"n1\" block/1 rw ; 1.3 ControllerPublishVolume 0 0 \"\""), W("deleted", "1.4 DeleteVolume 0 0 \"\"")}},
    {"1.5 controller ControllerUnpublishVolume 1 \"n1\"", "1.5 controller ControllerUnpublishVolume reply 0 0 \"\"",
     {"head 3 1", V("; 1.5 ControllerUnpublishVolume 0 0 \"\""), W("deleted", "1.4 DeleteVolume 0 0 \"\"")}},
    {"2.1 controller CreateVolume \"w\" 10 0 block/1", "2.1 controller CreateVolume reply 0 3 \"\"",
     {"head 4 2", V("; 1.5 ControllerUnpublishVolume 0 0 \"\""), "3 live \"w\" 10 block/1 ; ; 2.1 CreateVolume 0 3 \"\""}},
};

/* The changes of the last call, behind those that wait. */
static void keep_changes(tufayon_plugin *plugin, parts *changes) {
    static uint8_t value[ROOM];
    uint64_t key;
    size_t written;
    uint32_t ending;
    for (size_t place = 0; (ending = tufayon_changed(plugin, place, &key, value, sizeof value, &written)) != TUFAYON_NO_MORE; place++) {
        part it = {.key = key, .gone = ending == TUFAYON_TAKE_OUT};
        must(ending == TUFAYON_DONE || it.gone, "a change isn't told");
        if (!it.gone) put(&it.value, value, written);
        add(changes, it);
        cases++;
    }
}

/* Answers the frames of a group: their changes and replies wait. */
static void answer_group(tufayon_plugin *plugin, size_t from, size_t to, parts *changes, bytes *replies) {
    uint8_t reply[TUFAYON_REPLY_ROOM];
    for (size_t at = from; at < to; at++) {
        bytes frame = frame_of(STEPS[at].call);
        size_t used, written;
        must(tufayon_answer(plugin, frame.at, frame.size, &used, reply, sizeof reply, &written) == TUFAYON_DONE, "a frame isn't answered");
        keep_changes(plugin, changes);
        put(replies, reply, written);
        cases++;
    }
}

static void commit(parts *store, const parts *changes) {
    for (size_t at = 0; at < changes->count; at++) change(store, changes->at[at]);
}

/* The store and the replies are those of so many frames. */
static void is_as_after(size_t frames, const parts *store, bytes replies, size_t from) {
    parts right = parts_of(3, frames == 0 ? (const char *const[]){"head 1 0", NULL} : STEPS[frames - 1].store);
    bytes said = {0};
    for (size_t at = from; at < frames; at++) put(&said, frame_of(STEPS[at].reply).at, frame_of(STEPS[at].reply).size);
    must(same(record_of(&right, 3), record_of(store, 3)), "the store has something else after a group");
    must(same(said, replies), "a group has other replies");
}

static void has(tufayon_plugin *plugin, const parts *store) {
    static uint8_t record[ROOM];
    size_t written;
    must(tufayon_record(plugin, record, sizeof record, &written) == TUFAYON_DONE, "a record isn't told");
    must(same(record_of(store, 3), (bytes){.at = record, .size = written}), "the plugin has another record than its store");
}

/* Two groups, the first of so many frames. The second one is committed at once, or its commit is refused first: then the plugin is made again of the store. */
static void two_groups(size_t first, bool is_refused) {
    tufayon_plugin plugin = {0};
    parts store = {0}, changes = {0}, more = {0};
    bytes replies = {0}, later = {0};
    snprintf(doing, sizeof doing, "groups of %zu and %zu frames, %s", first, FRAMES - first, is_refused ? "the second refused" : "none refused");
    must(tufayon_controller_new((const uint8_t *)CONFIG, strlen(CONFIG), &plugin) == TUFAYON_DONE, "a controller isn't made");
    keep_changes(&plugin, &store);
    answer_group(&plugin, 0, first, &changes, &replies);
    commit(&store, &changes);
    is_as_after(first, &store, replies, 0);
    has(&plugin, &store);
    if (is_refused) {
        parts lost = {0};
        bytes unsaid = {0}, record = record_of(&store, 3);
        answer_group(&plugin, first, FRAMES, &lost, &unsaid);
        tufayon_free(&plugin);
        must(tufayon_controller_from_record((const uint8_t *)CONFIG, strlen(CONFIG), record.at, record.size, &plugin) == TUFAYON_DONE, "a store isn't opened");
        has(&plugin, &store);
    }
    answer_group(&plugin, first, FRAMES, &more, &later);
    commit(&store, &more);
    is_as_after(FRAMES, &store, later, first);
    has(&plugin, &store);
    tufayon_free(&plugin);
}

void test_groups(void) {
    for (size_t first = 0; first <= FRAMES; first++) two_groups(first, false), two_groups(first, true);
}
