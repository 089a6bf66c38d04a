/* Stores of 4,096 volumes, and a row that is as long as one may be here. Of their allocations every so many-th is refused. */
#include "playing.h"

enum { VOLUMES = 4096, NODES = 64, TARGETS = 16, PRIME = 997 };

static char call[1 << 10], reply[1 << 10], row[1 << 14]; /* lines */

/* Answers the call of that line with this reply, none where it is empty, and these changes. */
static void answered(tested *of, const parts *changes) {
    snprintf(doing, sizeof doing, "%s", call);
    answers(of, frame_of(call), frame_of(reply), changes);
}

static void opens(asked how, const parts *store) {
    tested of = {0};
    parts none = {0};
    stride = PRIME;
    snprintf(doing, sizeof doing, "a record of %zu parts", store->count);
    makes(&of, of_record(how, record_of(store, 3)), TUFAYON_DONE, store, &none);
    frees(&of);
    for (int version = 1; version <= 2; version++) { /* its head has no session */
        parts older = {0};
        for (size_t at = 0; at < store->count; at++) {
            part it = store->at[at];
            bytes value = {0};
            put(&value, it.value.at, at == 0 ? it.value.size - 8 : it.value.size);
            value.at[0] = (uint8_t)version;
            it.value = value;
            add(&older, it);
        }
        makes(&of, of_record(how, record_of(&older, version)), TUFAYON_RENEWED, store, store);
        frees(&of);
    }
    stride = 0;
}

/* A row more than there may be. */
static void is_too_long(asked how, const parts *store, const char *head, const char *last) {
    tested of = {0};
    parts longer = {0};
    for (size_t at = 0; at < store->count; at++) add(&longer, at == 0 ? part_of(head, 3) : store->at[at]);
    add(&longer, part_of(last, 3));
    snprintf(doing, sizeof doing, "a record of %zu parts", longer.count);
    stride = PRIME;
    makes(&of, of_record(how, record_of(&longer, 3)), TUFAYON_BAD_RECORD, NULL, NULL);
    stride = 0;
}

/* A store of which the last row lacks a byte, or has a version that there isn't. */
static void is_damaged(asked how, const parts *store) {
    tested of = {0};
    bytes *last = &store->at[store->count - 1].value;
    snprintf(doing, sizeof doing, "a record of which the last of %zu parts is damaged", store->count);
    last->size--;
    makes(&of, of_record(how, record_of(store, 3)), TUFAYON_BAD_RECORD, NULL, NULL);
    last->size++;
    last->at[0]++;
    makes(&of, of_record(how, record_of(store, 3)), TUFAYON_BAD_RECORD, NULL, NULL);
    last->at[0]--;
}

/* ---- a controller */

static const char *holdings(int count) {
    static char text[1 << 12];
    size_t at = 0;
    text[0] = 0;
    for (int node = 0; node < count; node++) at += (size_t)sprintf(text + at, "\"node%d\" block/5 %s ", node, node % 2 ? "ro" : "rw");
    return text;
}

static asked large_controller(void) {
    static char config[1 << 13];
    size_t at = (size_t)sprintf(config, "{\"greatest\":1000,\"nodes\":[");
    for (int node = 0; node < NODES; node++) at += (size_t)sprintf(config + at, "%s{\"id\":\"node%d\",\"slots\":4096}", node > 0 ? "," : "", node);
    sprintf(config + at, "]}");
    return as_controller(config);
}

static void create_all(tested *of) {
    for (int id = 1; id <= VOLUMES; id++) {
        parts changes = {0};
        snprintf(call, sizeof call, "1.%d controller CreateVolume \"v%d\" 10 0 block/5", id, id);
        snprintf(reply, sizeof reply, "1.%d controller CreateVolume reply 0 %d \"\"", id, id);
        snprintf(row, sizeof row, "head %d 1", id + 1);
        add(&changes, part_of(row, 3));
        snprintf(row, sizeof row, "%d live \"v%d\" 10 block/5 ; ; 1.%d CreateVolume 0 %d \"\"", id, id, id, id);
        add(&changes, part_of(row, 3));
        answered(of, &changes);
    }
    snprintf(call, sizeof call, "1.5000 controller CreateVolume \"w\" 10 0 block/5");
    snprintf(reply, sizeof reply, "1.5000 controller CreateVolume reply 8 0 \"volumes\"");
    answered(of, &(parts){0});
}

static void attach_everywhere(tested *of) {
    for (int node = 0; node < NODES; node++) {
        parts changes = {0};
        snprintf(call, sizeof call, "1.%d controller ControllerPublishVolume 1 \"node%d\" block/5 %s", 5001 + node, node, node % 2 ? "ro" : "rw");
        snprintf(reply, sizeof reply, "1.%d controller ControllerPublishVolume reply 0 0 \"\"", 5001 + node);
        snprintf(row, sizeof row, "1 live \"v1\" 10 block/5 ; %s; 1.%d ControllerPublishVolume 0 0 \"\"", holdings(node + 1), 5001 + node);
        add(&changes, part_of(row, 3));
        answered(of, &changes);
    }
}

static void delete_others(tested *of) {
    for (int id = 2; id <= VOLUMES; id++) {
        parts changes = {0};
        snprintf(call, sizeof call, "1.%d controller DeleteVolume %d", 6000 + id, id);
        snprintf(reply, sizeof reply, "1.%d controller DeleteVolume reply 0 0 \"\"", 6000 + id);
        snprintf(row, sizeof row, "%d deleted \"v%d\" 10 block/5 ; ; 1.%d DeleteVolume 0 0 \"\"", id, id, 6000 + id);
        add(&changes, part_of(row, 3));
        answered(of, &changes);
    }
}

/* A call of session 2, which forgets them: its row, and what is taken out. */
static void forget(tested *of, const char *head, const char *last) {
    parts changes = {0};
    add(&changes, part_of(head, 3));
    for (int id = 2; id <= VOLUMES; id++) add(&changes, (part){.key = (uint64_t)id, .gone = true});
    add(&changes, part_of(last, 3));
    stride = PRIME;
    answered(of, &changes);
    stride = 0;
}

static void controller(void) {
    tested of = {0};
    asked how = large_controller();
    parts head = parts_of(3, (const char *[]){"head 1 0", NULL});
    makes(&of, how, TUFAYON_DONE, &head, &head);
    create_all(&of);
    attach_everywhere(&of);
    opens(how, &of.store);
    compares(&of, how);
    is_damaged(how, &of.store);
    is_too_long(how, &of.store, "head 9999 1", "5000 live \"w\" 10 block/5 ; ; 1.1 CreateVolume 0 5000 \"\"");
    delete_others(&of);
    compares(&of, how);
    snprintf(call, sizeof call, "2.1 controller DeleteVolume 1");
    snprintf(reply, sizeof reply, "2.1 controller DeleteVolume reply 9 0 \"node0\"");
    snprintf(row, sizeof row, "1 live \"v1\" 10 block/5 ; %s; 2.1 DeleteVolume 9 0 \"node0\"", holdings(NODES));
    forget(&of, "head 4097 2", row);
    compares(&of, how);
    frees(&of);
}

/* ---- a node */

static const char *targets(int count) {
    static char text[1 << 11];
    size_t at = 0;
    text[0] = 0;
    for (int target = 0; target < count; target++) at += (size_t)sprintf(text + at, "\"/target%d%s\" rw ", target, "/a");
    return text;
}

/* A call of a volume that is answered OK, and its row but for the kept call. */
static void on_node(tested *of, int session, int number, const char *kind, const char *fields, const char *kept, const char *head) {
    parts changes = {0};
    snprintf(call, sizeof call, "%d.%d node:\"n1\" %s %s", session, number, kind, fields);
    snprintf(reply, sizeof reply, "%d.%d node:\"n1\" %s reply 0 0 \"\"", session, number, kind);
    snprintf(row, sizeof row, "%s; %d.%d %s 0 0 \"\"", kept, session, number, kind);
    if (head != NULL) add(&changes, part_of(head, 3));
    add(&changes, part_of(row, 3));
    answered(of, &changes);
}

static void stage_all(tested *of) {
    char fields[64], kept[1 << 12];
    for (int id = 1; id <= VOLUMES; id++) {
        snprintf(fields, sizeof fields, "%d block/5", id);
        snprintf(kept, sizeof kept, "%d block/5 ; ", id);
        on_node(of, 1, id, "NodeStageVolume", fields, kept, id == 1 ? "head \"n1\" 1" : NULL);
    }
    for (int target = 0; target < TARGETS; target++) {
        snprintf(fields, sizeof fields, "1 \"/target%d/a\" block/5 rw", target);
        snprintf(kept, sizeof kept, "1 block/5 ; %s", targets(target + 1));
        on_node(of, 1, 5000 + target, "NodePublishVolume", fields, kept, NULL);
    }
}

/* No volume more, neither in this session nor in the next, which forgets none. */
static void is_refused(tested *of) {
    parts changes = {0};
    snprintf(call, sizeof call, "1.6000 node:\"n1\" NodeStageVolume 9999 block/5");
    snprintf(reply, sizeof reply, "1.6000 node:\"n1\" NodeStageVolume reply 8 0 \"rows\"");
    answered(of, &changes);
    add(&changes, part_of("head \"n1\" 2", 3));
    snprintf(call, sizeof call, "2.1 node:\"n1\" NodeUnstageVolume 9999");
    snprintf(reply, sizeof reply, "2.1 node:\"n1\" NodeUnstageVolume reply 8 0 \"rows\"");
    answered(of, &changes);
}

static void unstage_others(tested *of) {
    char fields[64], kept[64];
    for (int id = 2; id <= VOLUMES; id++) {
        snprintf(fields, sizeof fields, "%d", id);
        snprintf(kept, sizeof kept, "%d - ; ", id);
        on_node(of, 2, id, "NodeUnstageVolume", fields, kept, NULL);
    }
}

static void node(void) {
    tested of = {0};
    asked how = as_node("n1");
    parts head = parts_of(3, (const char *[]){"head \"n1\" 0", NULL});
    makes(&of, how, TUFAYON_DONE, &head, &head);
    stage_all(&of);
    opens(how, &of.store);
    is_refused(&of);
    compares(&of, how);
    is_damaged(how, &of.store);
    is_too_long(how, &of.store, "head \"n1\" 2", "9999 block/5 ; ; 1.1 NodeStageVolume 0 0 \"\"");
    unstage_others(&of);
    compares(&of, how);
    snprintf(call, sizeof call, "3.1 node:\"n1\" NodeUnstageVolume 1");
    snprintf(reply, sizeof reply, "3.1 node:\"n1\" NodeUnstageVolume reply 9 0 \"/target0/a\"");
    snprintf(row, sizeof row, "1 block/5 ; %s; 3.1 NodeUnstageVolume 9 0 \"/target0/a\"", targets(TARGETS));
    forget(&of, "head \"n1\" 3", row);
    compares(&of, how);
    frees(&of);
}

void test_full(void) {
    stride = 0;
    controller();
    node();
    stride = 1;
}
