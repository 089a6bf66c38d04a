/* Nodes that are lost: docs/LINES.md, "Schedules" (`lose`) and "Records". */
#include "playing.h"

#define CONFIG "{\"greatest\":1000,\"nodes\":[{\"id\":\"n1\",\"slots\":4},{\"id\":\"n2\",\"slots\":4}]}"

/* Volumes in every state at n1: used there alone, and at n2 too; with a call of a use on its way, of a stop, or of none; wanted, and deleted. */
static const char *const BEFORE[] = {
    "nodes 7 \"n1\" \"n2\"",
    "1 volume \"used\" 1 0 block/1 ; 1 yes none 0 ; \"n1\" block/1 rw yes yes \"/a\" yes ,",
    "2 volume \"both\" 1 0 block/5 ; 2 yes none 0 ; \"n1\" block/5 rw yes yes \"/a\" yes \"/b\" yes , \"n2\" block/5 ro yes yes \"/c\" yes ,",
    "3 volume \"gone\" 1 0 ; 3 no none 0 ;",
    "4 volume \"attaching\" 1 0 block/1 ; 4 yes use \"n1\" \"/d\" block/1 rw 2 ; \"n1\" block/1 rw maybe no \"/d\" no ,",
    "5 volume \"staging\" 1 0 block/1 ; 5 yes use \"n1\" \"/d\" block/1 rw 3 ; \"n1\" block/1 rw yes maybe \"/d\" no ,",
    "6 volume \"publishing\" 1 0 block/5 ; 6 yes use \"n1\" \"/d\" block/5 ro 1 ; \"n1\" block/5 ro yes yes \"/a\" yes \"/d\" maybe ,",
    "7 volume \"stopping\" 1 0 block/1 ; 7 yes stop \"n1\" \"/e\" 3 ; \"n1\" block/1 rw yes maybe \"/e\" no ,",
    "8 volume \"detaching\" 1 0 block/1 ; 8 yes stop \"n1\" \"/e\" 1 ; \"n1\" block/1 rw maybe no \"/e\" no ,",
    "9 volume \"elsewhere\" 1 0 block/1 ; 9 yes use \"n2\" \"/f\" block/1 rw 2 ; \"n2\" block/1 rw yes maybe \"/f\" no ,",
    "10 volume \"created\" 1 0 ; - maybe create 2 ;",
    "11 volume \"deleting\" 1 0 ; 11 maybe delete 1 ;",
    "12 volume \"refused\" 1 0 ; - maybe none 0 ;",
    NULL,
};

/* What is so once n1 is lost: nothing is staged or published there, what may be attached stays, and a use there is its stop, not tried yet. */
static const char *const AFTER[] = {
    "nodes 9 \"n2\"",
    "1 volume \"used\" 1 0 block/1 ; 1 yes none 0 ; \"n1\" block/1 rw yes no ,",
    "2 volume \"both\" 1 0 block/5 ; 2 yes none 0 ; \"n1\" block/5 rw yes no , \"n2\" block/5 ro yes yes \"/c\" yes ,",
    "3 volume \"attaching\" 1 0 block/1 ; 4 yes stop \"n1\" \"/d\" 0 ; \"n1\" block/1 rw maybe no ,",
    "4 volume \"staging\" 1 0 block/1 ; 5 yes stop \"n1\" \"/d\" 0 ; \"n1\" block/1 rw yes no ,",
    "5 volume \"publishing\" 1 0 block/5 ; 6 yes stop \"n1\" \"/d\" 0 ; \"n1\" block/5 ro yes no ,",
    "6 volume \"stopping\" 1 0 block/1 ; 7 yes stop \"n1\" \"/e\" 3 ; \"n1\" block/1 rw yes no ,",
    "7 volume \"detaching\" 1 0 block/1 ; 8 yes stop \"n1\" \"/e\" 1 ; \"n1\" block/1 rw maybe no ,",
    "8 volume \"elsewhere\" 1 0 block/1 ; 9 yes use \"n2\" \"/f\" block/1 rw 2 ; \"n2\" block/1 rw yes maybe \"/f\" no ,",
    "9 volume \"created\" 1 0 ; - maybe create 2 ;",
    "10 volume \"deleting\" 1 0 ; 11 maybe delete 1 ;",
    "11 volume \"refused\" 1 0 ; - maybe none 0 ;",
    NULL,
};

static const asking LOST[] = {
    {"deliver 8.1 node:\"n1\" NodeStageVolume reply 0 0 \"\"", NULL, TUFAYON_IGNORED, 0, {0}}, /* every open call was given up */
    {"use \"used\" \"n1\" \"/a\" block/1 rw", NULL, TUFAYON_REFUSED, 5, {0}},         /* NoSuchNode */
    {"use \"used\" \"n2\" \"/a\" block/1 rw", NULL, TUFAYON_REFUSED, 7, {0}},         /* HeldElsewhere */
    {"delete \"used\"", NULL, TUFAYON_REFUSED, 12, {0}},                              /* InUse */
    {"stop \"used\" \"n2\" \"/a\"", NULL, TUFAYON_REFUSED, 11, {0}},                  /* NoSuchTarget */
    {"stop \"used\" \"n9\" \"/a\"", NULL, TUFAYON_REFUSED, 5, {0}},
    {"stop \"gone\" \"n1\" \"/a\"", NULL, TUFAYON_REFUSED, 2, {0}},                   /* NoSuchVolume */
    {"stop \"attaching\" \"n1\" \"/d\"", NULL, TUFAYON_REFUSED, 4, {0}},              /* Busy */
    {"timeout \"used\"", NULL, TUFAYON_REFUSED, 13, {0}},                             /* Idle */
    /* any target there detaches it */
    {"stop \"used\" \"n1\" \"/any\"", "9.1 controller ControllerUnpublishVolume 1 \"n1\"", 0, 0,
     {"1 volume \"used\" 1 0 block/1 ; 1 yes stop \"n1\" \"/any\" 1 ; \"n1\" block/1 rw maybe no ,"}},
    {"use \"used\" \"n2\" \"/a\" block/1 rw", NULL, TUFAYON_REFUSED, 4, {0}},
    {"deliver 9.1 controller ControllerUnpublishVolume reply 0 0 \"\"", NULL, 0, 0, {"1 volume \"used\" 1 0 block/1 ; 1 yes none 0 ;"}},
    {"use \"used\" \"n2\" \"/a\" block/1 rw", "9.2 controller ControllerPublishVolume 1 \"n2\" block/1 rw", 0, 0,
     {"1 volume \"used\" 1 0 block/1 ; 1 yes use \"n2\" \"/a\" block/1 rw 1 ; \"n2\" block/1 rw maybe no \"/a\" no ,"}},
    /* what was wanted goes on by its timeout */
    {"timeout \"attaching\"", "9.3 controller ControllerUnpublishVolume 4 \"n1\"", 0, 0,
     {"3 volume \"attaching\" 1 0 block/1 ; 4 yes stop \"n1\" \"/d\" 1 ; \"n1\" block/1 rw maybe no ,"}},
    {"timeout \"staging\"", "9.4 controller ControllerUnpublishVolume 5 \"n1\"", 0, 0,
     {"4 volume \"staging\" 1 0 block/1 ; 5 yes stop \"n1\" \"/d\" 1 ; \"n1\" block/1 rw maybe no ,"}},
    {"deliver 9.4 controller ControllerUnpublishVolume reply 13 0 \"\"", NULL, 0, 0,
     {"4 volume \"staging\" 1 0 block/1 ; 5 yes stop \"n1\" \"/d\" 1 ; \"n1\" block/1 rw maybe no ,"}},
    {"timeout \"staging\"", "9.5 controller ControllerUnpublishVolume 5 \"n1\"", 0, 0,
     {"4 volume \"staging\" 1 0 block/1 ; 5 yes stop \"n1\" \"/d\" 2 ; \"n1\" block/1 rw maybe no ,"}},
    {"deliver 9.5 controller ControllerUnpublishVolume reply 0 0 \"\"", NULL, 0, 0, {"4 volume \"staging\" 1 0 block/1 ; 5 yes none 0 ;"}},
    {"timeout \"stopping\"", "9.6 controller ControllerUnpublishVolume 7 \"n1\"", 0, 0,
     {"6 volume \"stopping\" 1 0 block/1 ; 7 yes stop \"n1\" \"/e\" 3 ; \"n1\" block/1 rw maybe no ,"}},
    {"timeout \"elsewhere\"", "9.7 node:\"n2\" NodeStageVolume 9 block/1", 0, 0,
     {"8 volume \"elsewhere\" 1 0 block/1 ; 9 yes use \"n2\" \"/f\" block/1 rw 3 ; \"n2\" block/1 rw yes maybe \"/f\" no ,"}},
    {"create \"gone\" 2 0 block/1", "9.8 controller CreateVolume \"gone\" 2 0 block/1", 0, 0, {"12 volume \"gone\" 2 0 block/1 ; - maybe create 1 ;"}},
    {0},
};

static void knows_a_loss(tested *of) {
    knows(of, "attached \"used\" \"n1\"", 0, TUFAYON_KNOWN_YES);
    knows(of, "attached \"attaching\" \"n1\"", 0, TUFAYON_KNOWN_MAYBE);
    knows(of, "staged \"used\" \"n1\"", 0, TUFAYON_KNOWN_NO);
    knows(of, "staged \"stopping\" \"n1\"", 0, TUFAYON_KNOWN_NO);
    knows(of, "published \"used\" \"n1\" \"/a\"", 0, TUFAYON_KNOWN_NO);
    knows(of, "published \"publishing\" \"n1\" \"/d\"", 0, TUFAYON_KNOWN_NO);
    knows(of, "published \"both\" \"n2\" \"/c\"", 0, TUFAYON_KNOWN_YES);
    knows(of, "exists \"gone\"", 0, TUFAYON_KNOWN_NO);
    wants(of, "goal \"publishing\"", 0, goal_of("stop \"n1\" \"/d\""));
    wants(of, "goal \"elsewhere\"", 0, goal_of("use \"n2\" \"/f\" block/1 rw"));
    wants(of, "goal \"used\"", 0, goal_of("none"));
}

/* An orchestrator of a record, opened in the session after that. */
static void open_it(tested *of, asked how, const char *const *lines) {
    parts given = parts_of(3, lines), next = next_session(&given, how.nodes), told = told_at(&given, &next);
    makes(of, of_record(how, record_of(&given, 3)), TUFAYON_DONE, &next, &told);
}

/* A volume that is attached at a lost node whose id is listed again: it is detached, or used there as any other. */
static void is_listed_again(asked how) {
    static const char *const LINES[] = {
        "nodes 1 \"n2\"",
        "1 volume \"v\" 1 0 block/1 ; 1 yes none 0 ; \"n1\" block/1 rw yes no ,",
        "2 volume \"w\" 1 0 block/1 ; 2 yes none 0 ; \"n1\" block/1 rw yes no ,",
        NULL,
    };
    static const asking STEPS[] = {
        {"use \"v\" \"n2\" \"/a\" block/1 rw", NULL, TUFAYON_REFUSED, 7, {0}},
        {"use \"v\" \"n1\" \"/a\" block/1 ro", NULL, TUFAYON_REFUSED, 9, {0}}, /* HeldOtherwise */
        {"use \"v\" \"n1\" \"/a\" block/1 rw", "2.1 node:\"n1\" NodeStageVolume 1 block/1", 0, 0,
         {"1 volume \"v\" 1 0 block/1 ; 1 yes use \"n1\" \"/a\" block/1 rw 1 ; \"n1\" block/1 rw yes maybe \"/a\" no ,"}},
        {"stop \"w\" \"n1\" \"/a\"", "2.2 controller ControllerUnpublishVolume 2 \"n1\"", 0, 0,
         {"2 volume \"w\" 1 0 block/1 ; 2 yes stop \"n1\" \"/a\" 1 ; \"n1\" block/1 rw maybe no ,"}},
        {"deliver 2.2 controller ControllerUnpublishVolume reply 0 0 \"\"", NULL, 0, 0, {"2 volume \"w\" 1 0 block/1 ; 2 yes none 0 ;"}},
        {0},
    };
    tested of = {0};
    open_it(&of, how, LINES);
    play_asked(&of, STEPS);
    frees(&of);
}

/* The id of a node is lost in the last session but one, and no more; and one that nobody listed is lost as well. */
static void ends_sessions(asked how) {
    static const char *const LAST[] = {"nodes 18446744073709551613 \"n1\"", "1 volume \"v\" 1 0 block/1 ; 1 yes none 0 ;", NULL};
    parts last = parts_of(3, (const char *[]){"nodes 18446744073709551615 \"n1\" \"n2\"", "1 volume \"v\" 1 0 block/1 ; 1 yes none 0 ;", NULL});
    tested of = {0};
    open_it(&of, how, LAST);
    loses(&of, "lose \"n9\"", TUFAYON_DONE, 0, &last);
    loses(&of, "lose \"n1\"", TUFAYON_REFUSED, 14, NULL); /* NumbersSpent */
    loses(&of, "lose \"n9\"", TUFAYON_REFUSED, 14, NULL);
    frees(&of);
}

/* All volumes of 4,096 are used at a node that is lost: each row is told. */
static void loses_many(asked how) {
    enum { VOLUMES = 4096 };
    static char row[128];
    tested of = {0};
    parts given = parts_of(3, (const char *[]){"nodes 1 \"n1\" \"n2\"", NULL}), after = parts_of(3, (const char *[]){"nodes 3 \"n2\"", NULL});
    for (int place = 1; place <= VOLUMES; place++) {
        snprintf(row, sizeof row, "%d volume \"v%d\" 1 0 block/1 ; %d yes none 0 ; \"n1\" block/1 rw yes yes \"/a\" yes ,", place, place, place);
        add(&given, part_of(row, 3));
        snprintf(row, sizeof row, "%d volume \"v%d\" 1 0 block/1 ; %d yes none 0 ; \"n1\" block/1 rw yes no ,", place, place, place);
        add(&after, part_of(row, 3));
    }
    stride = 997;
    parts next = next_session(&given, how.nodes), told = told_at(&given, &next);
    makes(&of, of_record(how, record_of(&given, 3)), TUFAYON_DONE, &next, &told);
    loses(&of, "lose \"n1\"", TUFAYON_DONE, 0, &after);
    frees(&of);
    stride = 1;
}

void test_losing(void) {
    tested of = {0};
    asked how = as_orchestrator(CONFIG);
    parts after = parts_of(3, AFTER), again = {0}, other = {0};
    open_it(&of, how, BEFORE);
    loses(&of, "lose \"n1\"", TUFAYON_DONE, 0, &after);
    knows_a_loss(&of);
    compares(&of, how);
    play_asked(&of, LOST);
    compares(&of, how);
    /* lost once more, though it isn't listed: a session begins, and nothing else */
    again = next_session(&of.store, nodes_of("{\"id\":\"n2\"}"));
    loses(&of, "lose \"n1\"", TUFAYON_DONE, 0, &again);
    other = next_session(&of.store, nodes_of("{\"id\":\"n2\"}"));
    loses(&of, "lose \"never\"", TUFAYON_DONE, 0, &other);
    compares(&of, how);
    frees(&of);
    is_listed_again(how);
    ends_sessions(how);
    loses_many(how);
}
