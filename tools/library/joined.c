/* Nodes that join with a session: docs/RECORDS.md, "Records", SESSION. */
#include "playing.h"

#define OF_N1 "node:\"n1\" "
#define LATE "10 0 \"stale\""

/* What was under way to a lost node of this id, and calls of the session of the joining. */
static const step JOINED[] = {
    {"1.4 " OF_N1 "NodePublishVolume 1 \"/a\" block/1 rw", LATE, {0}},
    {"1.3 " OF_N1 "NodeStageVolume 1 block/1", LATE, {0}},
    {"0.9 " OF_N1 "NodeUnstageVolume 7", LATE, {0}},
    {"2.3 " OF_N1 "NodeStageVolume 1 block/1", "0 0 \"\"", {"1 block/1 ; ; 2.3 NodeStageVolume 0 0 \"\""}},
    {"2.4 " OF_N1 "NodePublishVolume 1 \"/a\" block/1 rw", "0 0 \"\"", {"1 block/1 ; \"/a\" rw ; 2.4 NodePublishVolume 0 0 \"\""}},
    {"1.5 " OF_N1 "NodeUnpublishVolume 1 \"/a\"", LATE, {0}},
    {"1.9 " OF_N1 "NodeStageVolume 2 block/1", LATE, {0}},
    {0},
};

static const char *const NODE[] = {"head \"n1\" 4", "1 block/1 ; ; 4.2 NodeStageVolume 0 0 \"\"", NULL};
/* The same without a session in the head, and with a row that is forgotten. */
static const char *const OLDER[] = {
    "head \"n1\" 0",
    "1 block/1 ; ; 4.2 NodeStageVolume 0 0 \"\"",
    "2 - ; ; 2.9 NodeUnstageVolume 0 0 \"\"",
    NULL,
};

/* A record is opened with a session up to its own, and not with a later one. */
static void checks(int version) {
    tested of = {0};
    parts given = parts_of(version, version == 3 ? NODE : OLDER), store = parts_of(3, NODE), none = {0};
    bytes record = record_of(&given, version);
    for (uint64_t session = 0; session <= 4; session++) {
        snprintf(doing, sizeof doing, "a record of version %d, opened with session %d", version, (int)session);
        makes(&of, of_record(joined_node("n1", session), record), version == 3 ? TUFAYON_DONE : TUFAYON_RENEWED, &store, version == 3 ? &none : &store);
        compares(&of, joined_node("n1", session));
        frees(&of);
    }
    static const uint64_t later[] = {5, 6, UINT64_MAX};
    for (size_t at = 0; at < sizeof later / sizeof *later; at++) {
        snprintf(doing, sizeof doing, "a record of version %d of an earlier session", version);
        makes(&of, of_record(joined_node("n1", later[at]), record), TUFAYON_EARLIER_SESSION, NULL, NULL);
        makes(&of, of_record(joined_node("n2", later[at]), record), TUFAYON_BAD_RECORD, NULL, NULL);
    }
}

/* A new node has the session that it is told. */
static void is_told(uint64_t session, const char *line) {
    tested of = {0};
    parts head = parts_of(3, (const char *[]){line, NULL});
    snprintf(doing, sizeof doing, "a new node, %s", line);
    makes(&of, joined_node("n1", session), TUFAYON_DONE, &head, &head);
    compares(&of, joined_node("n1", session));
    frees(&of);
}

void test_joined(void) {
    tested of = {0};
    asked how = joined_node("n1", 2);
    parts head = parts_of(3, (const char *[]){"head \"n1\" 2", NULL});
    makes(&of, how, TUFAYON_DONE, &head, &head);
    makes(&of, how, TUFAYON_FULL, NULL, NULL);
    makes(&of, of_record(how, record_of(&head, 3)), TUFAYON_FULL, NULL, NULL);
    play(&of, how, JOINED);
    frees(&of);
    makes(&of, joined_node("", 2), TUFAYON_BAD_NAME, NULL, NULL);
    makes(&of, of_record(joined_node("", 2), record_of(&head, 3)), TUFAYON_BAD_NAME, NULL, NULL);
    is_told(0, "head \"n1\" 0");
    is_told(1, "head \"n1\" 1");
    is_told(UINT64_MAX, "head \"n1\" 18446744073709551615");
    for (int version = 1; version <= 3; version++) checks(version);
}
