/* A node's calls: each line of the table of docs/FRAMES.md, "What a reply says". */
#include "playing.h"

#define STAGE "node:\"n1\" NodeStageVolume "
#define UNSTAGE "node:\"n1\" NodeUnstageVolume "
#define PUBLISH "node:\"n1\" NodePublishVolume "
#define UNPUBLISH "node:\"n1\" NodeUnpublishVolume "
#define A "7 block/1 ; \"/a\" rw ; "

static const step STAGED[] = {
    {"1.1 " STAGE "7 block/1", "0 0 \"\"", {"head \"n1\" 1", "7 block/1 ; ; 1.1 NodeStageVolume 0 0 \"\""}},
    {"1.1 " STAGE "7 block/1", "0 0 \"\"", {0}},
    {"1.1 " UNSTAGE "7", "NodeStageVolume 0 0 \"\"", {0}},
    {"1.0 " UNSTAGE "7", "10 0 \"stale\"", {0}},
    {"0.7 " UNSTAGE "8", "10 0 \"stale\"", {0}},
    {"1.2 " STAGE "7 block/2", "6 0 \"staged otherwise\"", {"7 block/1 ; ; 1.2 NodeStageVolume 6 0 \"staged otherwise\""}},
    {"1.3 " STAGE "7 block/1", "0 0 \"\"", {"7 block/1 ; ; 1.3 NodeStageVolume 0 0 \"\""}},
    {"1.4 " PUBLISH "7 \"a\" block/1 rw", "3 0 \"target\"", {"7 block/1 ; ; 1.4 NodePublishVolume 3 0 \"target\""}},
    {"1.5 " PUBLISH "7 \"/a\" block/2 rw", "9 0 \"staged otherwise\"", {"7 block/1 ; ; 1.5 NodePublishVolume 9 0 \"staged otherwise\""}},
    {"1.6 " PUBLISH "7 \"/a\" block/1 rw", "0 0 \"\"", {A "1.6 NodePublishVolume 0 0 \"\""}},
    {"1.7 " PUBLISH "7 \"/a\" block/1 rw", "0 0 \"\"", {A "1.7 NodePublishVolume 0 0 \"\""}},
    {"1.8 " PUBLISH "7 \"/a\" block/1 ro", "6 0 \"published otherwise\"", {A "1.8 NodePublishVolume 6 0 \"published otherwise\""}},
    {"1.9 " PUBLISH "7 \"/b\" block/1 rw", "9 0 \"/a\"", {A "1.9 NodePublishVolume 9 0 \"/a\""}},
    {"1.10 " UNSTAGE "7", "9 0 \"/a\"", {A "1.10 NodeUnstageVolume 9 0 \"/a\""}},
    {"1.11 " UNPUBLISH "7 \"/b\"", "0 0 \"\"", {A "1.11 NodeUnpublishVolume 0 0 \"\""}},
    {"1.12 " PUBLISH "8 \"/a\" block/1 rw", "9 0 \"not staged\"", {"8 - ; ; 1.12 NodePublishVolume 9 0 \"not staged\""}},
    {"1.13 " UNSTAGE "9", "0 0 \"\"", {"9 - ; ; 1.13 NodeUnstageVolume 0 0 \"\""}},
    {"1.14 " UNPUBLISH "18446744073709551615 \"/a\"", "0 0 \"\"", {"18446744073709551615 - ; ; 1.14 NodeUnpublishVolume 0 0 \"\""}},
    {"2.1 node:\"n2\" NodeStageVolume 7 block/1", NULL, {0}},
    {"2.1 controller DeleteVolume 7", NULL, {0}},
    {"2.1 " STAGE "reply 0 0 \"\"", NULL, {0}},
    {0},
};

static const step FORGOTTEN[] = {
    {"1.90 " UNPUBLISH "7 \"/a\"", "0 0 \"\"", {"7 block/1 ; ; 1.90 NodeUnpublishVolume 0 0 \"\""}},
    {"1.91 " UNSTAGE "7", "0 0 \"\"", {"7 - ; ; 1.91 NodeUnstageVolume 0 0 \"\""}},
    {"2.1 " UNSTAGE "7", "0 0 \"\"", {"head \"n1\" 2", "gone 8", "gone 9", "gone 18446744073709551615", "7 - ; ; 2.1 NodeUnstageVolume 0 0 \"\""}},
    {"1.92 " UNSTAGE "7", "10 0 \"stale\"", {0}},
    {"3.1 " STAGE "8 block/1", "0 0 \"\"", {"head \"n1\" 3", "gone 7", "8 block/1 ; ; 3.1 NodeStageVolume 0 0 \"\""}},
    {0},
};

/* The longest reply: a node and a detail of 255 bytes. */
#define LONG "node:\"n\"*255 "
#define LONG_ROW "1 mount:\"x\"*128/6 ; \"/\"*255 ro ; "
static const step LONGEST[] = {
    {"1.1 " LONG "NodeStageVolume 1 mount:\"x\"*128/6", "0 0 \"\"", {"head \"n\"*255 1", "1 mount:\"x\"*128/6 ; ; 1.1 NodeStageVolume 0 0 \"\""}},
    {"1.2 " LONG "NodePublishVolume 1 \"/\"*255 mount:\"x\"*128/6 ro", "0 0 \"\"", {LONG_ROW "1.2 NodePublishVolume 0 0 \"\""}},
    {"1.3 " LONG "NodeUnstageVolume 1", "9 0 \"/\"*255", {LONG_ROW "1.3 NodeUnstageVolume 9 0 \"/\"*255"}},
    {"1.3 " LONG "NodeUnstageVolume 1", "9 0 \"/\"*255", {0}},
    {0},
};

/* Sixteen targets, and no more. */
static void sixteen(tested *of) {
    static char row[1 << 12], targets[1 << 11], call[1 << 9];
    play_one(of, "1.40 " STAGE "10 mount:\"xfs\"/7", "0 0 \"\"", (const char *[]){"10 mount:\"xfs\"/7 ; ; 1.40 NodeStageVolume 0 0 \"\"", NULL});
    for (int target = 0; target < 17; target++) {
        snprintf(call, sizeof call, "1.%d " PUBLISH "10 \"/t%d\" mount:\"xfs\"/7 %s", 41 + target, target, target % 2 ? "ro" : "rw");
        if (target < 16) sprintf(targets + strlen(targets), "\"/t%d\" %s ", target, target % 2 ? "ro" : "rw");
        snprintf(row, sizeof row, "10 mount:\"xfs\"/7 ; %s; 1.%d NodePublishVolume %s", targets, 41 + target, target < 16 ? "0 0 \"\"" : "8 0 \"targets\"");
        play_one(of, call, target < 16 ? "0 0 \"\"" : "8 0 \"targets\"", (const char *[]){row, NULL});
    }
}

void test_node(void) {
    char name[256];
    tested of = {0}, longest = {0};
    asked how = as_node("n1");
    parts head = parts_of(3, (const char *[]){"head \"n1\" 0", NULL});
    parts long_head = parts_of(3, (const char *[]){"head \"n\"*255 0", NULL});
    makes(&of, how, TUFAYON_DONE, &head, &head);
    play(&of, how, STAGED);
    sixteen(&of);
    play(&of, how, FORGOTTEN);
    memset(name, 'n', 255), name[255] = 0;
    makes(&longest, as_node(name), TUFAYON_DONE, &long_head, &long_head);
    play(&longest, as_node(name), LONGEST);
    frees(&of);
    frees(&longest);
}
