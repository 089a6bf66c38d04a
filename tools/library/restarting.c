/* An orchestrator's record, opened: docs/RECORDS.md, "Records". */
#include "playing.h"

#define CONFIG "{\"greatest\":1000,\"nodes\":[{\"id\":\"n1\",\"slots\":4},{\"slots\":0,\"id\":\"n2\"}]}"
#define NO_NODES "{\"greatest\":1000,\"nodes\":[]}"
#define NODES "nodes 3 \"n1\" \"n2\""

static const char *const WHOLE[] = {
    "nodes 3 \"n1\" \"n2\"",
    "1 volume \"v\" 10 0 block/1 ; 1 yes use \"n1\" \"/a\" block/1 rw 1 ; \"n1\" block/1 rw maybe no \"/a\" no ,",
    "2 volume \"gone\" 0 7 block/1 ; 3 no none 0 ;",
    "3 volume \"new\" 0 7 ; - maybe create 3 ;",
    "4 volume \"both\" 5 0 block/5 mount:\"\"/4 ; 9 yes stop \"n2\" \"/b\" 2 ; \"n1\" block/5 rw yes yes \"/a\" yes \"/b\" yes , "
    "\"n2\" block/5 ro yes yes \"/b\" maybe \"/c\" yes ,",
    "5 volume \"last\" 5 0 block/1 ; 18446744073709551615 maybe delete 1 ;",
    "6 volume \"refused\" 5 0 block/1 ; - maybe none 0 ;",
    "7 volume \"left\" 5 0 block/5 ; 10 yes none 0 ; \"n9\" block/5 rw yes no , \"n1\" block/5 rw yes yes \"/a\" yes , \"n8\" block/5 ro maybe no ,",
    "8 volume \"stopping\" 5 0 block/1 ; 11 yes stop \"n9\" \"/x\" 0 ; \"n9\" block/1 rw maybe no ,",
    "9 volume \"detaching\" 5 0 block/5 ; 12 yes stop \"n9\" \"/x\" 3 ; \"n2\" block/5 rw yes yes \"/a\" yes , \"n9\" block/5 rw yes no ,",
    NULL,
};

static const char *const NO_RECORD[][4] = {
    {"head \"n1\" 1"}, {"head 3 1"},                                                       /* a plugin's */
    {"nodes 1 \"n1\" \"n1\""}, {"nodes 1 \"n1\" \"\""},
    {"1 volume \"v\" 1 0 ; - maybe none 0 ;"},                                             /* no head */
    {"nodes 1 \"n1\" \"n2\"", "2 volume \"v\" 1 0 ; - maybe none 0 ;"},                    /* another key */
    {"nodes 1 \"n1\" \"n2\"", "1 volume \"v\" 1 0 ; - maybe none 0 ;", "1 volume \"w\" 1 0 ; - maybe none 0 ;"},
    {"nodes 1 \"n1\" \"n2\"", "1 volume \"v\" 1 0 ; - maybe none 0 ;", "2 volume \"v\" 1 0 ; - maybe none 0 ;"}, /* a name twice */
    {"nodes 1 \"n1\" \"n2\"", "1 volume \"\" 1 0 ; - maybe none 0 ;"},
    {"nodes 1 \"n1\" \"n2\"", "1 volume \"v\" 1 0 ; - maybe none 1 ;"},                    /* tries without a goal */
    {"nodes 1 \"n1\" \"n2\"", "1 volume \"v\" 1 0 ; - maybe create 0 ;"},
    {"nodes 1 \"n1\" \"n2\"", "1 volume \"v\" 1 0 ; - maybe create 4 ;"},
    {"nodes 1 \"n1\" \"n2\"", "1 volume \"v\" 1 0 ; - yes none 0 ;"},
    {"nodes 1 \"n1\" \"n2\"", "1 volume \"v\" 1 0 ; 1 maybe none 0 ;"},
    {"nodes 1 \"n1\" \"n2\"", "1 volume \"v\" 1 0 ; 0 yes none 0 ;"},
    {"nodes 1 \"n1\" \"n2\"", "1 volume \"v\" 1 0 ; 1 yes delete 1 ;"},
    {"nodes 1 \"n1\" \"n2\"", "1 volume \"v\" 1 0 block/1 ; 1 yes use \"n1\" \"/a\" block/1 rw 1 ;"}, /* no entry */
    {"nodes 1 \"n1\" \"n2\"", "1 volume \"v\" 1 0 block/1 ; 1 yes none 0 ; \"n1\" block/1 rw yes yes ,"},
    {"nodes 1 \"n1\" \"n2\"", "1 volume \"v\" 1 0 block/1 ; 1 yes none 0 ; \"n1\" block/1 rw yes yes \"/a\" maybe ,"},
    {"nodes 1 \"n1\" \"n2\"", "1 volume \"v\" 1 0 block/1 ; 1 yes none 0 ; \"n3\" block/1 rw yes yes \"/a\" yes ,"},
    {"nodes 1 \"n1\" \"n2\"", "1 volume \"v\" 1 0 block/2 ; 1 yes none 0 ; \"n1\" block/1 rw yes yes \"/a\" yes ,"},
    {"nodes 1 \"n1\" \"n2\"", "1 volume \"v\" 1 0 block/1 ; 1 yes none 0 ; \"n1\" block/1 rw yes yes \"/a\" yes \"/b\" yes ,"},
    {"nodes 1 \"n1\" \"n2\"", "1 volume \"v\" 1 0 block/1 ; 1 yes none 0 ; \"n1\" block/1 rw yes yes \"/a\" yes , \"n2\" block/1 rw yes yes \"/a\" yes ,"},
    {"nodes 1 \"n1\" \"n2\"", "1 volume \"v\" 1 0 block/1 ; 1 yes use \"n1\" \"/a\" block/1 ro 1 ; \"n1\" block/1 rw maybe no \"/a\" no ,"},
    /* entries of which only the attachment is left: not attached, staged, of no capability of the volume, twice, not beside the other one, in a use */
    {"nodes 1 \"n1\" \"n2\"", "1 volume \"v\" 1 0 block/5 ; 1 yes none 0 ; \"n9\" block/5 rw no no ,"},
    {"nodes 1 \"n1\" \"n2\"", "1 volume \"v\" 1 0 block/5 ; 1 yes none 0 ; \"n9\" block/5 rw yes yes ,"},
    {"nodes 1 \"n1\" \"n2\"", "1 volume \"v\" 1 0 block/5 ; 1 yes none 0 ; \"n9\" block/5 rw yes maybe ,"},
    {"nodes 1 \"n1\" \"n2\"", "1 volume \"v\" 1 0 block/5 ; 1 yes none 0 ; \"n9\" block/1 rw yes no ,"},
    {"nodes 1 \"n1\" \"n2\"", "1 volume \"v\" 1 0 block/5 ; 1 yes none 0 ; \"n9\" block/5 rw yes no , \"n9\" block/5 rw yes no ,"},
    {"nodes 1 \"n1\" \"n2\"", "1 volume \"v\" 1 0 block/1 ; 1 yes none 0 ; \"n9\" block/1 rw yes no , \"n1\" block/1 rw yes yes \"/a\" yes ,"},
    {"nodes 1 \"n1\" \"n2\"", "1 volume \"v\" 1 0 block/5 ; 1 yes use \"n9\" \"/a\" block/5 rw 1 ; \"n9\" block/5 rw maybe no ,"},
    {"nodes 1 \"n1\" \"n2\"", "1 volume \"v\" 1 0 block/5 ; 1 yes stop \"n9\" \"/a\" 4 ; \"n9\" block/5 rw maybe no ,"},
    {"nodes 1 \"n1\" \"n2\"", "1 volume \"v\" 1 0 block/5 ; 1 yes stop \"n8\" \"/a\" 0 ; \"n9\" block/5 rw maybe no ,"},
    {"nodes 1 \"n1\" \"n2\"", "1 volume \"v\" 1 0 block/5 ; 1 maybe delete 1 ; \"n9\" block/5 rw yes no ,"},
    {"nodes 1 \"n1\" \"n2\"", "1 volume \"v\" 1 0 block/5 ; 1 no none 0 ; \"n9\" block/5 rw yes no ,"},
    /* no tries of a stop that isn't of a left one */
    {"nodes 1 \"n1\" \"n2\"", "1 volume \"v\" 1 0 block/5 ; 1 yes stop \"n1\" \"/a\" 0 ; \"n1\" block/5 rw maybe no \"/a\" no ,"},
    {"nodes 1 \"n1\" \"n2\"", "1 live \"v\" 10 block/1 ; ; 1.1 CreateVolume 0 1 \"\""},    /* a controller's row */
};

/* A record, opened in the next session, and in the one after that. */
static void opens(asked how, const char *const *lines) {
    tested of = {0};
    parts given = parts_of(3, lines), next = next_session(&given, how.nodes), told = told_at(&given, &next);
    snprintf(doing, sizeof doing, "an orchestrator's record, %s, %s ..", lines[0], lines[1] ? lines[1] : "");
    makes(&of, of_record(how, record_of(&given, 3)), TUFAYON_DONE, &next, &told);
    asks(&of, "delete \"x\"", TUFAYON_REFUSED, (bytes){0}, 2, NULL); /* and the session is still to be committed */
    compares(&of, how);
    frees(&of);
}

/* What is told of a record with a deleted volume is all of it: the rows behind have other keys, and the last key is taken out. */
static void forgets(asked how) {
    static const char *const LINES[] = {NODES, "1 volume \"v\" 1 0 ; - maybe none 0 ;", "2 volume \"gone\" 2 0 mount:\"xfs\"/1 block/1 ; 3 no none 0 ;",
                                        "3 volume \"w\" 1 0 block/1 ; 4 yes none 0 ;", NULL};
    static const char *const TOLD[] = {"nodes 4 \"n1\" \"n2\"", "1 volume \"v\" 1 0 ; - maybe none 0 ;", "2 volume \"w\" 1 0 block/1 ; 4 yes none 0 ;",
                                       "gone 3", NULL};
    static const asking STEPS[] = {
        {"delete \"gone\"", NULL, TUFAYON_REFUSED, 2, {0}}, /* NoSuchVolume */
        {"create \"gone\" 2 0 block/1", "4.1 controller CreateVolume \"gone\" 2 0 block/1", 0, 0, {"3 volume \"gone\" 2 0 block/1 ; - maybe create 1 ;"}},
        {0},
    };
    tested of = {0};
    parts given = parts_of(3, LINES), told = parts_of(3, TOLD), next = {0};
    for (size_t at = 0; at < 3; at++) add(&next, told.at[at]);
    snprintf(doing, sizeof doing, "a deleted volume's name is forgotten");
    makes(&of, of_record(how, record_of(&given, 3)), TUFAYON_DONE, &next, &told);
    knows(&of, "exists \"gone\"", 0, TUFAYON_KNOWN_NO);
    play_asked(&of, STEPS);
    frees(&of);
}

/* What is wanted when it is opened is sent again, and numbered anew. */
static void goes_on(asked how) {
    tested of = {0};
    parts given = parts_of(3, WHOLE), next = next_session(&given, how.nodes), told = told_at(&given, &next);
    static const asking STEPS[] = {
        {"deliver 3.1 controller CreateVolume reply 0 4 \"\"", NULL, TUFAYON_IGNORED, 0, {0}}, /* of the session before */
        {"timeout \"v\"", "4.1 controller ControllerPublishVolume 1 \"n1\" block/1 rw", 0, 0,
         {"1 volume \"v\" 10 0 block/1 ; 1 yes use \"n1\" \"/a\" block/1 rw 2 ; \"n1\" block/1 rw maybe no \"/a\" no ,"}},
        {"timeout \"gone\"", NULL, TUFAYON_REFUSED, 2, {0}},
        {"timeout \"new\"", "4.2 controller CreateVolume \"new\" 0 7", 0, 0, {"2 volume \"new\" 0 7 ; - maybe create 3 ;"}},
        {"timeout \"both\"", "4.3 node:\"n2\" NodeUnpublishVolume 9 \"/b\"", 0, 0,
         {"3 volume \"both\" 5 0 block/5 mount:\"\"/4 ; 9 yes stop \"n2\" \"/b\" 3 ; \"n1\" block/5 rw yes yes \"/a\" yes \"/b\" yes , "
          "\"n2\" block/5 ro yes yes \"/b\" maybe \"/c\" yes ,"}},
        {"deliver 4.3 node:\"n2\" NodeUnpublishVolume reply 0 0 \"\"", NULL, 0, 0, /* another target is left */
         {"3 volume \"both\" 5 0 block/5 mount:\"\"/4 ; 9 yes none 0 ; \"n1\" block/5 rw yes yes \"/a\" yes \"/b\" yes , "
          "\"n2\" block/5 ro yes yes \"/c\" yes ,"}},
        {"use \"both\" \"n1\" \"/c\" block/5 rw", "4.4 node:\"n1\" NodePublishVolume 9 \"/c\" block/5 rw", 0, 0,
         {"3 volume \"both\" 5 0 block/5 mount:\"\"/4 ; 9 yes use \"n1\" \"/c\" block/5 rw 1 ; \"n1\" block/5 rw yes yes \"/a\" yes \"/b\" yes \"/c\" maybe , "
          "\"n2\" block/5 ro yes yes \"/c\" yes ,"}},
        {"timeout \"last\"", "4.5 controller DeleteVolume 18446744073709551615", 0, 0,
         {"4 volume \"last\" 5 0 block/1 ; 18446744073709551615 maybe delete 2 ;"}},
        {"timeout \"stopping\"", "4.6 controller ControllerUnpublishVolume 11 \"n9\"", 0, 0, /* its node is lost */
         {"7 volume \"stopping\" 5 0 block/1 ; 11 yes stop \"n9\" \"/x\" 1 ; \"n9\" block/1 rw maybe no ,"}},
        {"deliver 4.6 controller ControllerUnpublishVolume reply 0 0 \"\"", NULL, 0, 0, {"7 volume \"stopping\" 5 0 block/1 ; 11 yes none 0 ;"}},
        {0},
    };
    makes(&of, of_record(how, record_of(&given, 3)), TUFAYON_DONE, &next, &told);
    wants(&of, "goal \"new\"", 0, goal_of("create"));
    wants(&of, "goal \"last\"", 0, goal_of("delete"));
    wants(&of, "goal \"both\"", 0, goal_of("stop \"n2\" \"/b\""));
    wants(&of, "goal \"stopping\"", 0, goal_of("stop \"n9\" \"/x\""));
    names(&of, 3, 0, (bytes){.at = (uint8_t *)"last", .size = 4});
    play_asked(&of, STEPS);
    compares(&of, how);
    frees(&of);
}

/* ---- with other nodes than the record's */

/* A node that the configuration leaves out is no matter where no volume may be attached. */
static void opens_with_other_nodes(asked how) {
    static const char *const MORE[] = {"nodes 1 \"n1\" \"n2\" \"n3\"", "1 volume \"v\" 1 0 block/5 ; 1 yes none 0 ; \"n1\" block/5 rw yes yes \"/a\" yes ,", NULL};
    static const char *const UNLISTED[] = {"nodes 1 \"n1\" \"n2\"", "1 volume \"v\" 1 0 block/5 ; 1 yes none 0 ; \"n3\" block/5 rw maybe no ,", NULL};
    opens(how, (const char *[]){"nodes 1 \"n1\"", NULL});
    opens(how, (const char *[]){"nodes 1 \"n2\" \"n1\"", NULL});
    opens(how, (const char *[]){"nodes 1 \"n1\" \"n2\" \"n3\"", NULL});
    opens(how, (const char *[]){"nodes 1", NULL});
    opens(how, MORE);
    opens(how, UNLISTED);
    opens(as_orchestrator(NO_NODES), UNLISTED);
    opens(as_orchestrator(NO_NODES), (const char *[]){"nodes 1 \"n1\" \"n2\"", NULL});
}

static const char *const IN_USE[][2] = {
    {"nodes 1 \"n1\" \"n3\" \"n2\"", "1 volume \"v\" 1 0 block/1 ; 1 yes none 0 ; \"n3\" block/1 rw yes yes \"/a\" yes ,"},
    {"nodes 1 \"n3\"", "1 volume \"v\" 1 0 block/1 ; 1 yes use \"n3\" \"/a\" block/1 rw 1 ; \"n3\" block/1 rw maybe no \"/a\" no ,"},
    {"nodes 1 \"n3\"", "1 volume \"v\" 1 0 block/1 ; 1 yes stop \"n3\" \"/a\" 3 ; \"n3\" block/1 rw maybe no \"/a\" no ,"},
    {"nodes 1 \"n3\"", "1 volume \"v\" 1 0 block/1 ; 1 yes none 0 ; \"n3\" block/1 rw yes no ,"}, /* left of a lost node that was listed again */
};

/* Where one may be, nothing is opened; the last session is looked at before that. */
static void is_in_use(asked how) {
    tested of = {0};
    for (size_t at = 0; at < sizeof IN_USE / sizeof *IN_USE; at++) {
        parts given = parts_of(3, (const char *[]){IN_USE[at][0], IN_USE[at][1], NULL});
        snprintf(doing, sizeof doing, "a record in use: %s, %s", IN_USE[at][0], IN_USE[at][1]);
        makes(&of, of_record(how, record_of(&given, 3)), TUFAYON_NODE_IN_USE, NULL, NULL);
        makes(&of, of_record(as_orchestrator(NO_NODES), record_of(&given, 3)), TUFAYON_NODE_IN_USE, NULL, NULL);
        given = parts_of(3, (const char *[]){"nodes 18446744073709551615 \"n3\"", IN_USE[at][1], NULL});
        makes(&of, of_record(how, record_of(&given, 3)), TUFAYON_REFUSED, NULL, NULL);
    }
}

/* ---- in a session that is named */

/* A record, or none, opened in the next session, or in this one, where that is later: the head is this. */
static void opens_in(asked how, const char *const *lines, uint64_t session, const char *head) {
    tested of = {0};
    parts given = {0}, next = {0};
    if (lines != NULL) {
        given = parts_of(3, lines);
        next = next_session(&given, how.nodes);
        next.at[0] = part_of(head, 3);
        how = of_record(how, record_of(&given, 3));
    } else {
        add(&next, part_of(head, 3));
    }
    parts told = lines != NULL ? told_at(&given, &next) : next;
    snprintf(doing, sizeof doing, "an orchestrator in session %llu: %s", (unsigned long long)session, head);
    makes(&of, in_session(how, session), TUFAYON_DONE, &next, &told);
    makes(&of, in_session(how, session), TUFAYON_FULL, NULL, NULL);
    compares(&of, how);
    frees(&of);
}

/* Where none is opened, no session has it opened. */
static void opens_in_sessions(asked how) {
    static const char *const LAST[] = {"nodes 18446744073709551615 \"n1\" \"n2\"", NULL};
    static const char *const THREE = "nodes 3 \"n1\" \"n2\"", *const LATEST = "nodes 18446744073709551614 \"n1\" \"n2\"";
    static const uint64_t ANY[] = {0, 1, 9, UINT64_MAX};
    opens_in(how, NULL, 0, "nodes 1 \"n1\" \"n2\"");
    opens_in(how, NULL, 1, "nodes 1 \"n1\" \"n2\"");
    opens_in(how, NULL, 2, "nodes 2 \"n1\" \"n2\"");
    opens_in(how, NULL, UINT64_MAX - 1, LATEST);
    for (uint64_t session = 0; session <= 4; session++) opens_in(how, (const char *[]){THREE, NULL}, session, "nodes 4 \"n1\" \"n2\"");
    opens_in(how, (const char *[]){THREE, NULL}, 5, "nodes 5 \"n1\" \"n2\"");
    opens_in(how, WHOLE, 1700000000, "nodes 1700000000 \"n1\" \"n2\"");
    opens_in(how, WHOLE, UINT64_MAX - 1, LATEST);
    for (size_t at = 0; at < sizeof ANY / sizeof *ANY; at++) {
        tested of = {0};
        parts last = parts_of(3, LAST), used = parts_of(3, (const char *[]){IN_USE[0][0], IN_USE[0][1], NULL});
        snprintf(doing, sizeof doing, "no orchestrator in session %llu", (unsigned long long)ANY[at]);
        makes(&of, in_session(of_record(how, record_of(&last, 3)), ANY[at]), TUFAYON_REFUSED, NULL, NULL);
        makes(&of, in_session(of_record(how, record_of(&used, 3)), ANY[at]), TUFAYON_NODE_IN_USE, NULL, NULL);
        makes(&of, in_session(of_record(how, frame_of("1.1 controller DeleteVolume 1")), ANY[at]), TUFAYON_BAD_RECORD, NULL, NULL);
        makes(&of, in_session(as_orchestrator("{}"), ANY[at]), TUFAYON_BAD_NAME, NULL, NULL);
    }
}

/* ---- damaged */

/* A record of which a byte is another one. Where it is one still, its orchestrator is of that record. */
static void is_changed(tested *of, asked how, bytes record) {
    uint8_t to[1 << 11];
    size_t written;
    uint32_t ending = tufayon_orchestrator_from_record(how.name.at, how.name.size, record.at, record.size, &of->plugin);
    cases++;
    must(ending == TUFAYON_BAD_RECORD || ending == TUFAYON_DONE, "a damaged record has another ending");
    if (ending == TUFAYON_DONE) {
        parts given = parts_in(record), next = next_session(&given, how.nodes);
        must(tufayon_record(&of->plugin, to, sizeof to, &written) == TUFAYON_DONE, "a changed record is longer");
        must(same(record_of(&next, 3), (bytes){.at = to, .size = written}), "the orchestrator of a changed record has another one");
        tufayon_free(&of->plugin);
    }
}

/* A record of which a byte is another one, or that ends too early or too late. */
static void is_damaged(asked how) {
    tested of = {0};
    parts given = parts_of(3, WHOLE);
    bytes record = record_of(&given, 3), longer = record_of(&given, 3);
    for (size_t size = 0; size < record.size; size++) {
        snprintf(doing, sizeof doing, "%zu bytes of an orchestrator's record", size);
        makes(&of, of_record(how, (bytes){.at = record.at, .size = size}), TUFAYON_BAD_RECORD, NULL, NULL);
    }
    put_number(&longer, 0, 1);
    makes(&of, of_record(how, longer), TUFAYON_BAD_RECORD, NULL, NULL);
    for (size_t place = 0; place < record.size; place++)
        for (unsigned byte = 0; byte < 256; byte++) {
            uint8_t was = record.at[place];
            snprintf(doing, sizeof doing, "an orchestrator's record with %u at %zu", byte, place);
            record.at[place] = (uint8_t)byte;
            is_changed(&of, how, record);
            record.at[place] = was;
        }
}

void test_orchestrator_records(void) {
    tested of = {0};
    asked how = as_orchestrator(CONFIG);
    static const char *const SPENT[] = {"nodes 18446744073709551615 \"n1\" \"n2\"", "1 volume \"v\" 1 0 ; - maybe none 0 ;", NULL};
    opens(how, (const char *[]){"nodes 0 \"n1\" \"n2\"", NULL});
    opens(how, (const char *[]){"nodes 18446744073709551613 \"n1\" \"n2\"", NULL});
    opens(how, WHOLE);
    forgets(how);
    goes_on(how);
    opens_with_other_nodes(how);
    is_in_use(how);
    opens_in_sessions(how);
    parts spent = parts_of(3, SPENT), none = {0};
    snprintf(doing, sizeof doing, "no session is left");
    makes(&of, of_record(how, record_of(&spent, 3)), TUFAYON_REFUSED, NULL, NULL);
    makes(&of, of_record(as_orchestrator("{}"), record_of(&spent, 3)), TUFAYON_BAD_NAME, NULL, NULL);
    for (size_t at = 0; at < sizeof NO_RECORD / sizeof *NO_RECORD; at++) {
        parts given = parts_of(3, NO_RECORD[at]);
        snprintf(doing, sizeof doing, "no orchestrator's record: %s, %s ..", NO_RECORD[at][0], NO_RECORD[at][1] ? NO_RECORD[at][1] : "");
        makes(&of, of_record(how, record_of(&given, 3)), TUFAYON_BAD_RECORD, NULL, NULL);
    }
    for (int version = 0; version <= 4; version++) {
        parts older = parts_of(version, WHOLE);
        snprintf(doing, sizeof doing, "an orchestrator's record of version %d", version);
        if (version != 3) makes(&of, of_record(how, record_of(&older, version)), TUFAYON_BAD_RECORD, NULL, NULL);
        makes(&of, of_record(how, record_of(&none, version)), TUFAYON_BAD_RECORD, NULL, NULL);
    }
    is_damaged(how);
}

/* ---- the most volumes */

/* All names but the first are of deleted volumes: they are forgotten, and as many can be created. */
static void forgets_many(asked how) {
    enum { VOLUMES = 4096 };
    static char row[128];
    tested of = {0};
    parts given = parts_of(3, (const char *[]){NODES, "1 volume \"w\" 10 0 block/5 ; 1 yes none 0 ;", NULL});
    for (int place = 2; place <= VOLUMES; place++) {
        snprintf(row, sizeof row, "%d volume \"v%d\" 10 0 block/5 ; %d no none 0 ;", place, place, place);
        add(&given, part_of(row, 3));
    }
    parts next = next_session(&given, how.nodes), told = told_at(&given, &next);
    must(next.count == 2 && told.count == VOLUMES + 1 && told.at[2].gone && told.at[VOLUMES].key == VOLUMES, "the test forgets otherwise");
    snprintf(doing, sizeof doing, "4095 names are forgotten");
    makes(&of, of_record(how, record_of(&given, 3)), TUFAYON_DONE, &next, &told);
    parts changed = parts_of(3, (const char *[]){"2 volume \"v2\" 10 0 block/5 ; - maybe create 1 ;", NULL});
    asks(&of, "create \"v2\" 10 0 block/5", TUFAYON_DONE, frame_of("4.1 controller CreateVolume \"v2\" 10 0 block/5"), 0, &changed);
    frees(&of);
}

/* 64 entries of nodes that were lost: another node's is one too many, until one of them is detached. */
static void has_most_entries(asked how) {
    static char row[1 << 13];
    size_t at = (size_t)sprintf(row, "1 volume \"v\" 10 0 block/5 ; 1 yes none 0 ; ");
    const size_t begins = at;
    tested of = {0};
    for (int node = 0; node < 64; node++) at += (size_t)sprintf(row + at, "\"x%d\" block/5 rw yes no , ", node);
    parts given = parts_of(3, (const char *[]){NODES, row, NULL}), next = next_session(&given, how.nodes), told = told_at(&given, &next);
    makes(&of, of_record(how, record_of(&given, 3)), TUFAYON_DONE, &next, &told);
    asks(&of, "use \"v\" \"n1\" \"/a\" block/5 rw", TUFAYON_REFUSED, (bytes){0}, 15, NULL); /* Full */
    memmove(row + begins, row + begins + strlen("\"x0\" block/5 rw yes no , "), strlen(row + begins) - strlen("\"x0\" block/5 rw yes no , ") + 1);
    static char asked_row[1 << 13], used_row[1 << 13];
    snprintf(asked_row, sizeof asked_row, "1 volume \"v\" 10 0 block/5 ; 1 yes stop \"x0\" \"/a\" 1 ; \"x0\" block/5 rw maybe no , %s", row + begins);
    snprintf(used_row, sizeof used_row, "1 volume \"v\" 10 0 block/5 ; 1 yes use \"n1\" \"/a\" block/5 rw 1 ; %s \"n1\" block/5 rw maybe no \"/a\" no ,", row + begins);
    parts stopped = parts_of(3, (const char *[]){asked_row, NULL}), detached = parts_of(3, (const char *[]){row, NULL}), used = parts_of(3, (const char *[]){used_row, NULL});
    asks(&of, "stop \"v\" \"x0\" \"/a\"", TUFAYON_DONE, frame_of("4.1 controller ControllerUnpublishVolume 1 \"x0\""), 0, &stopped);
    asks(&of, "deliver 4.1 controller ControllerUnpublishVolume reply 0 0 \"\"", TUFAYON_DONE, (bytes){0}, 0, &detached);
    asks(&of, "use \"v\" \"n1\" \"/a\" block/5 rw", TUFAYON_DONE, frame_of("4.2 controller ControllerPublishVolume 1 \"n1\" block/5 rw"), 0, &used);
    frees(&of);
}

void test_many(void) {
    enum { VOLUMES = 4096 };
    static char request[64], frame[128], row[128];
    tested of = {0};
    asked how = as_orchestrator(CONFIG);
    parts head = parts_of(3, (const char *[]){"nodes 1 \"n1\" \"n2\"", NULL});
    has_most_entries(how);
    makes(&of, how, TUFAYON_DONE, &head, &head);
    stride = 0;
    for (int place = 1; place <= VOLUMES; place++) {
        snprintf(request, sizeof request, "create \"v%d\" 10 0 block/5", place);
        snprintf(frame, sizeof frame, "1.%d controller CreateVolume \"v%d\" 10 0 block/5", place, place);
        snprintf(row, sizeof row, "%d volume \"v%d\" 10 0 block/5 ; - maybe create 1 ;", place, place);
        parts changed = parts_of(3, (const char *[]){row, NULL});
        asks(&of, request, TUFAYON_DONE, frame_of(frame), 0, &changed);
    }
    asks(&of, "create \"w\" 10 0 block/5", TUFAYON_REFUSED, (bytes){0}, 15, NULL); /* Full */
    names(&of, VOLUMES - 1, 0, (bytes){.at = (uint8_t *)"v4096", .size = 5});
    names(&of, VOLUMES, TUFAYON_NO_MORE, (bytes){0});
    stride = 997;
    compares(&of, how);
    parts next = next_session(&of.store, how.nodes);
    snprintf(doing, sizeof doing, "a record of which the last of %zu parts is damaged", next.count);
    tested damaged = {0};
    next.at[VOLUMES].value.size--;
    makes(&damaged, of_record(how, record_of(&next, 3)), TUFAYON_BAD_RECORD, NULL, NULL);
    next.at[VOLUMES].value.size++;
    add(&next, part_of("4097 volume \"w\" 10 0 block/5 ; - maybe create 1 ;", 3));
    tested other = {0};
    makes(&other, of_record(how, record_of(&next, 3)), TUFAYON_BAD_RECORD, NULL, NULL);
    forgets_many(how);
    stride = 1;
    frees(&of);
}
