/* An orchestrator's calls: its commands, timeouts and replies, by docs/LINES.md, "Reports", "Records" and "What a reply says". */
#include "playing.h"

#define CONFIG "{\"greatest\":1000,\"nodes\":[{\"id\":\"n1\",\"slots\":4},{\"slots\":0,\"id\":\"n2\"}]}"
#define V "1 volume \"v\" 10 0 block/1 block/5 ; "
#define W "2 volume \"w\" 7 9 mount:\"ext4\"/7 block/4 ; "
#define AT(known) "\"n1\" block/1 rw " known " , "

static const asking MADE[] = {
    {"create \"v\" 10 0 block/1 block/5", "1.1 controller CreateVolume \"v\" 10 0 block/1 block/5", 0, 0, {V "- maybe create 1 ;"}},
    {"create \"v\" 10 0 block/1", NULL, TUFAYON_REFUSED, 1, {0}},                   /* NameUsed */
    {"use \"v\" \"n1\" \"/a\" block/1 rw", NULL, TUFAYON_REFUSED, 3, {0}},          /* NotCreated */
    {"use \"x\" \"n1\" \"/a\" block/1 rw", NULL, TUFAYON_REFUSED, 2, {0}},          /* NoSuchVolume */
    {"stop \"x\" \"n1\" \"/a\"", NULL, TUFAYON_REFUSED, 2, {0}},
    {"delete \"x\"", NULL, TUFAYON_REFUSED, 2, {0}},
    {"timeout \"x\"", NULL, TUFAYON_REFUSED, 2, {0}},
    {"deliver 1.1 controller CreateVolume reply 10 0 \"stale\"", NULL, TUFAYON_OLDER_STORE, 0, {0}},
    {"timeout \"v\"", "1.2 controller CreateVolume \"v\" 10 0 block/1 block/5", 0, 0, {V "- maybe create 2 ;"}},
    {"deliver 1.1 controller CreateVolume reply 0 1 \"\"", NULL, TUFAYON_IGNORED, 0, {0}}, /* its call was given up */
    {"deliver 1.1 controller CreateVolume reply 10 0 \"stale\"", NULL, TUFAYON_IGNORED, 0, {0}},
    {"deliver 1.2 controller DeleteVolume reply 10 0 \"stale\"", NULL, TUFAYON_IGNORED, 0, {0}},
    {"deliver 1.2 controller DeleteVolume reply 0 0 \"\"", NULL, TUFAYON_IGNORED, 0, {0}}, /* another kind */
    {"deliver 1.2 controller CreateVolume \"v\" 10 0 block/1", NULL, TUFAYON_IGNORED, 0, {0}}, /* a call */
    {"deliver 1.2 controller CreateVolume reply 0 1 \"\"", NULL, 0, 0, {V "1 yes none 0 ;"}},
    {"deliver 1.2 controller CreateVolume reply 0 1 \"\"", NULL, TUFAYON_IGNORED, 0, {0}},
    {"timeout \"v\"", NULL, TUFAYON_REFUSED, 13, {0}},                              /* Idle */
    {"create \"w\" 7 9 mount:\"ext4\"/7 block/4", "1.3 controller CreateVolume \"w\" 7 9 mount:\"ext4\"/7 block/4", 0, 0, {W "- maybe create 1 ;"}},
    {"deliver 1.3 controller CreateVolume reply 8 0 \"volumes\"", NULL, 0, 0, {W "- maybe none 0 ;"}},
    {"create \"w\" 7 9 mount:\"ext4\"/7 block/4", "1.4 controller CreateVolume \"w\" 7 9 mount:\"ext4\"/7 block/4", 0, 0, {W "- maybe create 1 ;"}},
    {"deliver 1.4 controller CreateVolume reply 0 2 \"\"", NULL, 0, 0, {W "2 yes none 0 ;"}},
    {0},
};

static const asking USED[] = {
    {"use \"v\" \"n9\" \"/a\" block/1 rw", NULL, TUFAYON_REFUSED, 5, {0}},          /* NoSuchNode */
    {"use \"v\" \"n1\" \"/a\" block/2 rw", NULL, TUFAYON_REFUSED, 6, {0}},          /* NotCapable */
    {"stop \"v\" \"n1\" \"/a\"", NULL, TUFAYON_REFUSED, 11, {0}},                   /* NoSuchTarget */
    {"use \"v\" \"n1\" \"/a\" block/1 rw", "1.5 controller ControllerPublishVolume 1 \"n1\" block/1 rw", 0, 0,
     {V "1 yes use \"n1\" \"/a\" block/1 rw 1 ; " AT("maybe no \"/a\" no")}},
    {"use \"v\" \"n1\" \"/a\" block/1 rw", NULL, TUFAYON_REFUSED, 4, {0}},          /* Busy */
    {"deliver 1.5 controller ControllerPublishVolume reply 0 0 \"\"", "1.6 node:\"n1\" NodeStageVolume 1 block/1", 0, 0,
     {V "1 yes use \"n1\" \"/a\" block/1 rw 1 ; " AT("yes maybe \"/a\" no")}},
    {"deliver 1.6 node:\"n2\" NodeStageVolume reply 0 0 \"\"", NULL, TUFAYON_IGNORED, 0, {0}}, /* another plugin's */
    {"deliver 1.6 node:\"n1\" NodeStageVolume reply 0 0 \"\"", "1.7 node:\"n1\" NodePublishVolume 1 \"/a\" block/1 rw", 0, 0,
     {V "1 yes use \"n1\" \"/a\" block/1 rw 1 ; " AT("yes yes \"/a\" maybe")}},
    {"deliver 1.7 node:\"n1\" NodePublishVolume reply 0 0 \"\"", NULL, 0, 0, {V "1 yes none 0 ; " AT("yes yes \"/a\" yes")}},
    {"use \"v\" \"n1\" \"/a\" block/1 rw", NULL, TUFAYON_MET, 0, {0}},
    {"use \"v\" \"n2\" \"/a\" block/5 rw", NULL, TUFAYON_REFUSED, 7, {0}},          /* HeldElsewhere */
    {"use \"v\" \"n1\" \"/b\" block/5 rw", NULL, TUFAYON_REFUSED, 9, {0}},          /* HeldOtherwise */
    {"use \"v\" \"n1\" \"/b\" block/1 rw", NULL, TUFAYON_REFUSED, 10, {0}},         /* TargetTaken */
    {"delete \"v\"", NULL, TUFAYON_REFUSED, 12, {0}},                               /* InUse */
    {"stop \"v\" \"n9\" \"/a\"", NULL, TUFAYON_REFUSED, 5, {0}},
    {0},
};

static const asking STOPPED[] = {
    {"stop \"v\" \"n1\" \"/a\"", "1.8 node:\"n1\" NodeUnpublishVolume 1 \"/a\"", 0, 0, {V "1 yes stop \"n1\" \"/a\" 1 ; " AT("yes yes \"/a\" maybe")}},
    {"timeout \"v\"", "1.9 node:\"n1\" NodeUnpublishVolume 1 \"/a\"", 0, 0, {V "1 yes stop \"n1\" \"/a\" 2 ; " AT("yes yes \"/a\" maybe")}},
    {"deliver 1.9 node:\"n1\" NodeUnpublishVolume reply 0 0 \"\"", "1.10 node:\"n1\" NodeUnstageVolume 1", 0, 0,
     {V "1 yes stop \"n1\" \"/a\" 1 ; " AT("yes maybe \"/a\" no")}},
    {"deliver 1.10 node:\"n1\" NodeUnstageVolume reply 9 0 \"/a\"", NULL, 0, 0, {V "1 yes stop \"n1\" \"/a\" 1 ; " AT("yes maybe \"/a\" no")}},
    {"timeout \"v\"", "1.11 node:\"n1\" NodeUnstageVolume 1", 0, 0, {V "1 yes stop \"n1\" \"/a\" 2 ; " AT("yes maybe \"/a\" no")}},
    {"deliver 1.11 node:\"n1\" NodeUnstageVolume reply 0 0 \"\"", "1.12 controller ControllerUnpublishVolume 1 \"n1\"", 0, 0,
     {V "1 yes stop \"n1\" \"/a\" 1 ; " AT("maybe no \"/a\" no")}},
    {"deliver 1.12 controller ControllerUnpublishVolume reply 0 0 \"\"", NULL, 0, 0, {V "1 yes none 0 ;"}},
    {"use \"v\" \"n2\" \"/a\" block/5 ro", "1.13 controller ControllerPublishVolume 1 \"n2\" block/5 ro", 0, 0,
     {V "1 yes use \"n2\" \"/a\" block/5 ro 1 ; \"n2\" block/5 ro maybe no \"/a\" no ,"}},
    {"deliver 1.13 controller ControllerPublishVolume reply 8 0 \"slots\"", "1.14 controller ControllerUnpublishVolume 1 \"n2\"", 0, 0,
     {V "1 yes stop \"n2\" \"/a\" 1 ; \"n2\" block/5 ro maybe no \"/a\" no ,"}},
    {"deliver 1.14 controller ControllerUnpublishVolume reply 0 0 \"\"", NULL, 0, 0, {V "1 yes none 0 ;"}},
    {"delete \"v\"", "1.15 controller DeleteVolume 1", 0, 0, {V "1 maybe delete 1 ;"}},
    {"delete \"v\"", NULL, TUFAYON_REFUSED, 4, {0}},
    {"deliver 1.15 controller DeleteVolume reply 0 0 \"\"", NULL, 0, 0, {V "1 no none 0 ;"}},
    {"delete \"v\"", NULL, TUFAYON_MET, 0, {0}},
    {"create \"v\" 10 0 block/1", NULL, TUFAYON_REFUSED, 1, {0}},
    {0},
};

/* What isn't a name, an id, a target, or capabilities. */
static void bad_names(tested *of) {
    static const char *const LINES[] = {
        "create \"\" 1 0 block/1", "create \"v\"*129 1 0 block/1", "create \"\\xff\" 1 0 block/1", "create \"x\" 1 0 block/0", "create \"x\" 1 0 block/8",
        "create \"x\" 1 0 mount:\"e\"*129/1", "create \"x\" 1 0 mount:\"\\xff\"/1",
        "create \"x\" 1 0 block/1 block/1 block/1 block/1 block/1 block/1 block/1 block/1 block/1",
        "use \"\" \"n1\" \"/a\" block/1 rw", "use \"v\" \"\" \"/a\" block/1 rw", "use \"v\" \"n\"*256 \"/a\" block/1 rw", "use \"v\" \"n1\" \"\" block/1 rw",
        "use \"v\" \"n1\" \"/\"*256 block/1 rw", "use \"v\" \"n1\" \"\\xc3\" block/1 rw", "use \"v\" \"n1\" \"/a\" block/9 rw",
        "stop \"\" \"n1\" \"/a\"", "stop \"v\" \"\" \"/a\"", "stop \"v\" \"n1\" \"\"", "delete \"\"", "delete \"v\"*129", "timeout \"\"", "timeout \"\\xff\"",
    };
    static const char *const KNOWN[] = {"exists \"\"", "attached \"\" \"n1\"", "attached \"v\" \"\"", "staged \"v\"*129 \"n1\"", "staged \"v\" \"n\"*256",
                                        "published \"\" \"n1\" \"/a\"", "published \"v\" \"\" \"/a\"", "published \"v\" \"n1\" \"\""};
    static const char *const LOST[] = {"lose \"\"", "lose \"n\"*256", "lose \"\\xff\"", "lose \"n\\xc3\""};
    for (size_t at = 0; at < sizeof LINES / sizeof *LINES; at++) asks(of, LINES[at], TUFAYON_BAD_NAME, (bytes){0}, 0, NULL);
    for (size_t at = 0; at < sizeof KNOWN / sizeof *KNOWN; at++) knows(of, KNOWN[at], TUFAYON_BAD_NAME, 0);
    for (size_t at = 0; at < sizeof LOST / sizeof *LOST; at++) loses(of, LOST[at], TUFAYON_BAD_NAME, 0, NULL);
    wants(of, "goal \"\"", TUFAYON_BAD_NAME, (bytes){0});
    wants(of, "goal \"\\xff\"", TUFAYON_BAD_NAME, (bytes){0});
}

/* Bytes that are no capability, or more than one; and bytes that are no frame. */
static void bad_bytes(tested *of) {
    static const struct {
        size_t size;
        uint8_t bytes[5];
        bool is_list; /* they are capabilities, but not one */
    } BAD[] = {{1, {0}, 0}, {1, {1}, 0}, {2, {1, 1}, 0}, {2, {2, 1}, 0}, {3, {0, 1, 0}, 0}, {4, {1, 4, 'e', 1}, 0}, {0, {0}, 1}, {4, {0, 1, 0, 1}, 1}};
    uint8_t frame[TUFAYON_FRAME_ROOM], bad[TUFAYON_FRAME_ROOM];
    const uint8_t *w = (const uint8_t *)"w", *n1 = (const uint8_t *)"n1", *a = (const uint8_t *)"/a", *x = (const uint8_t *)"x";
    size_t written, used;
    uint32_t fault;
    for (size_t at = 0; at < sizeof BAD / sizeof *BAD; at++) {
        snprintf(doing, sizeof doing, "bytes %zu that are no capability", at);
        must(tufayon_use(&of->plugin, w, 1, n1, 2, a, 2, BAD[at].bytes, BAD[at].size, true, frame, sizeof frame, &written, &fault) == TUFAYON_BAD_NAME,
             "bytes are a capability");
        must(BAD[at].is_list || tufayon_create(&of->plugin, x, 1, 1, 0, BAD[at].bytes, BAD[at].size, frame, sizeof frame, &written, &fault) == TUFAYON_BAD_NAME,
             "bytes are capabilities");
        cases += 2;
    }
    memset(bad, 0xff, sizeof bad);
    snprintf(doing, sizeof doing, "bytes that are no frame");
    must(tufayon_deliver(&of->plugin, bad, sizeof bad, &used, frame, sizeof frame, &written, &fault) == TUFAYON_BAD_FRAME, "bytes are a frame");
    cases++;
    asks(of, "deliver 1.1 controller DeleteVolume reply 17 0 \"\"", TUFAYON_BAD_FRAME, (bytes){0}, 0, NULL);
}

/* Calls of a plugin, and of an orchestrator, on a handle of the other, or of none. */
static void other_kinds(tested *of, uint32_t ending) {
    static const char *const LINES[] = {"create \"v\" 1 0 block/1", "use \"v\" \"n1\" \"/a\" block/1 rw", "stop \"v\" \"n1\" \"/a\"", "delete \"v\"",
                                        "timeout \"v\"", "deliver 1.1 controller CreateVolume reply 0 1 \"\""};
    for (size_t at = 0; at < sizeof LINES / sizeof *LINES; at++) asks(of, LINES[at], ending, (bytes){0}, 0, NULL);
    loses(of, "lose \"n1\"", ending, 0, NULL);
    knows(of, "exists \"v\"", ending, 0);
    knows(of, "attached \"v\" \"n1\"", ending, 0);
    knows(of, "staged \"v\" \"n1\"", ending, 0);
    knows(of, "published \"v\" \"n1\" \"/a\"", ending, 0);
    wants(of, "goal \"v\"", ending, (bytes){0});
    names(of, 0, ending, (bytes){0});
}

static void known_while_used(tested *of) {
    knows(of, "exists \"v\"", 0, TUFAYON_KNOWN_YES);
    knows(of, "attached \"v\" \"n1\"", 0, TUFAYON_KNOWN_YES);
    knows(of, "staged \"v\" \"n1\"", 0, TUFAYON_KNOWN_YES);
    knows(of, "published \"v\" \"n1\" \"/a\"", 0, TUFAYON_KNOWN_YES);
    knows(of, "published \"v\" \"n1\" \"/b\"", 0, TUFAYON_KNOWN_NO);
    knows(of, "attached \"v\" \"n2\"", 0, TUFAYON_KNOWN_NO);
    knows(of, "staged \"w\" \"n1\"", 0, TUFAYON_KNOWN_NO);
    knows(of, "exists \"x\"", 0, TUFAYON_KNOWN_NO);
    wants(of, "goal \"v\"", 0, goal_of("none"));
    wants(of, "goal \"x\"", 0, goal_of("none"));
    names(of, 0, 0, (bytes){.at = (uint8_t *)"v", .size = 1});
    names(of, 1, 0, (bytes){.at = (uint8_t *)"w", .size = 1});
    names(of, 2, TUFAYON_NO_MORE, (bytes){0});
    names(of, SIZE_MAX, TUFAYON_NO_MORE, (bytes){0});
}

/* What is wanted, and what may be, while calls are open; and the longest texts. */
static void known_while_asked(tested *of) {
    static const asking LONGEST[] = {
        {"use \"w\" \"n2\" \"/\"*255 mount:\"ext4\"/7 ro", "1.16 controller ControllerPublishVolume 2 \"n2\" mount:\"ext4\"/7 ro", 0, 0,
         {W "2 yes use \"n2\" \"/\"*255 mount:\"ext4\"/7 ro 1 ; \"n2\" mount:\"ext4\"/7 ro maybe no \"/\"*255 no ,"}},
        {0},
    };
    static const asking ENDED[] = {
        {"timeout \"w\"", "1.17 controller ControllerPublishVolume 2 \"n2\" mount:\"ext4\"/7 ro", 0, 0,
         {W "2 yes use \"n2\" \"/\"*255 mount:\"ext4\"/7 ro 2 ; \"n2\" mount:\"ext4\"/7 ro maybe no \"/\"*255 no ,"}},
        {"timeout \"w\"", "1.18 controller ControllerPublishVolume 2 \"n2\" mount:\"ext4\"/7 ro", 0, 0,
         {W "2 yes use \"n2\" \"/\"*255 mount:\"ext4\"/7 ro 3 ; \"n2\" mount:\"ext4\"/7 ro maybe no \"/\"*255 no ,"}},
        {"timeout \"w\"", "1.19 controller ControllerUnpublishVolume 2 \"n2\"", 0, 0, /* it was sent three times */
         {W "2 yes stop \"n2\" \"/\"*255 1 ; \"n2\" mount:\"ext4\"/7 ro maybe no \"/\"*255 no ,"}},
        {0},
    };
    play_asked(of, LONGEST);
    wants(of, "goal \"w\"", 0, goal_of("use \"n2\" \"/\"*255 mount:\"ext4\"/7 ro"));
    knows(of, "attached \"w\" \"n2\"", 0, TUFAYON_KNOWN_MAYBE);
    knows(of, "staged \"w\" \"n2\"", 0, TUFAYON_KNOWN_NO);
    play_asked(of, ENDED);
    wants(of, "goal \"w\"", 0, goal_of("stop \"n2\" \"/\"*255"));
    knows(of, "exists \"v\"", 0, TUFAYON_KNOWN_NO);
}

void test_orchestrator(void) {
    tested of = {0}, plugin = {0};
    asked how = as_orchestrator(CONFIG);
    parts head = parts_of(3, (const char *[]){"nodes 1 \"n1\" \"n2\"", NULL}), node_head = parts_of(3, (const char *[]){"head \"n1\" 0", NULL});
    other_kinds(&of, TUFAYON_EMPTY);
    makes(&of, as_orchestrator("nothing"), TUFAYON_BAD_NAME, NULL, NULL);
    makes(&of, how, TUFAYON_DONE, &head, &head);
    makes(&of, how, TUFAYON_FULL, NULL, NULL);
    makes(&of, of_record(how, record_of(&head, 3)), TUFAYON_FULL, NULL, NULL);
    compares(&of, how);
    refuses(&of, frame_of("1.1 controller DeleteVolume 1"), TUFAYON_OTHER_KIND);
    bad_names(&of);
    play_asked(&of, MADE);
    wants(&of, "goal \"w\"", 0, goal_of("none"));
    compares(&of, how);
    play_asked(&of, USED);
    known_while_used(&of);
    bad_bytes(&of);
    compares(&of, how);
    play_asked(&of, STOPPED);
    known_while_asked(&of);
    compares(&of, how);
    makes(&plugin, as_node("n1"), TUFAYON_DONE, &node_head, &node_head);
    other_kinds(&plugin, TUFAYON_OTHER_KIND);
    frees(&plugin);
    frees(&of);
}
