/* A controller's calls: each line of the table of docs/FRAMES.md, "What a reply says". */
#include "playing.h"

#define CREATE "controller CreateVolume "
#define PUBLISH "controller ControllerPublishVolume "
#define UNPUBLISH "controller ControllerUnpublishVolume "
#define DELETE "controller DeleteVolume "
#define V "1 live \"v\" 10 block/1 block/5 mount:\"ext4\"/3 ; "
#define W(state) "2 " state " \"w\" 7 block/7 ; ; "
#define LONG "\"n\"*255"
#define EIGHT \
    "mount:\"a\"*128/1 mount:\"b\"*128/1 mount:\"c\"*128/2 mount:\"d\"*128/3 mount:\"e\"*128/4 mount:\"f\"*128/5 mount:\"g\"*128/1 mount:\"\xc3\xa9\"*64/1"

static const step MADE[] = {
    {"1.1 " CREATE "\"v\" 10 0 block/1 block/5 mount:\"ext4\"/3", "0 1 \"\"", {"head 2 1", V "; 1.1 CreateVolume 0 1 \"\""}},
    {"1.1 " CREATE "\"v\" 10 0 block/1 block/5 mount:\"ext4\"/3", "0 1 \"\"", {0}},
    {"1.1 " DELETE "1", "CreateVolume 0 1 \"\"", {0}},
    {"1.0 " DELETE "1", "10 0 \"stale\"", {0}},
    {"0.9 " DELETE "1", "10 0 \"stale\"", {0}},
    {"1.2 " CREATE "\"v\" 10 0", "3 0 \"capabilities\"", {V "; 1.2 CreateVolume 3 0 \"capabilities\""}},
    {"1.2 " CREATE "\"v\" 10 0", "3 0 \"capabilities\"", {0}},
    {"1.3 " CREATE "\"w\" 10 0", "3 0 \"capabilities\"", {0}},
    {"1.4 " CREATE "\"w\" 0 0 block/1", "3 0 \"capacity\"", {0}},
    {"1.5 " CREATE "\"w\" 9223372036854775808 0 block/1", "3 0 \"capacity\"", {0}},
    {"1.5 " CREATE "\"w\" 1 9223372036854775808 block/1", "3 0 \"capacity\"", {0}},
    {"1.6 " CREATE "\"w\" 20 10 block/1", "11 0 \"range\"", {0}},
    {"1.7 " CREATE "\"v\" 5 10 block/5 block/1", "0 1 \"\"", {V "; 1.7 CreateVolume 0 1 \"\""}},
    {"1.8 " CREATE "\"v\" 11 0 block/1", "6 0 \"name\"", {V "; 1.8 CreateVolume 6 0 \"name\""}},
    {"1.9 " CREATE "\"v\" 5 9 block/1", "6 0 \"name\"", {V "; 1.9 CreateVolume 6 0 \"name\""}},
    {"1.10 " CREATE "\"v\" 10 0 block/2", "6 0 \"name\"", {V "; 1.10 CreateVolume 6 0 \"name\""}},
    {"1.11 " CREATE "\"w\" 1001 0 block/1", "11 0 \"range\"", {0}},
    {"1.11 " CREATE "\"w\" 0 5000 block/1", "11 0 \"range\"", {0}},
    {"1.12 " CREATE "\"w\" 0 7 block/7", "0 2 \"\"", {"head 3 1", W("live") "1.12 CreateVolume 0 2 \"\""}},
    {0},
};

static const step ATTACHED[] = {
    {"1.13 " PUBLISH "99 \"n1\" block/1 rw", "5 0 \"volume\"", {0}},
    {"1.14 " PUBLISH "1 \"n9\" block/1 rw", "5 0 \"node\"", {V "; 1.14 ControllerPublishVolume 5 0 \"node\""}},
    {"1.15 " PUBLISH "1 \"n1\" block/2 rw", "3 0 \"capability\"", {V "; 1.15 ControllerPublishVolume 3 0 \"capability\""}},
    {"1.16 " PUBLISH "1 \"n1\" block/1 rw", "0 0 \"\"", {V "\"n1\" block/1 rw ; 1.16 ControllerPublishVolume 0 0 \"\""}},
    {"1.16 " PUBLISH "1 \"n1\" block/1 rw", "0 0 \"\"", {0}},
    {"1.17 " PUBLISH "1 \"n1\" block/1 rw", "0 0 \"\"", {V "\"n1\" block/1 rw ; 1.17 ControllerPublishVolume 0 0 \"\""}},
    {"1.18 " PUBLISH "1 \"n1\" block/1 ro", "6 0 \"held otherwise\"", {V "\"n1\" block/1 rw ; 1.18 ControllerPublishVolume 6 0 \"held otherwise\""}},
    {"1.19 " PUBLISH "1 \"n2\" block/5 rw", "9 0 \"n1\"", {V "\"n1\" block/1 rw ; 1.19 ControllerPublishVolume 9 0 \"n1\""}},
    {"1.20 " DELETE "1", "9 0 \"n1\"", {V "\"n1\" block/1 rw ; 1.20 DeleteVolume 9 0 \"n1\""}},
    {"1.21 " UNPUBLISH "1 \"n2\"", "0 0 \"\"", {V "\"n1\" block/1 rw ; 1.21 ControllerUnpublishVolume 0 0 \"\""}},
    {"1.22 " UNPUBLISH "1 \"n1\"", "0 0 \"\"", {V "; 1.22 ControllerUnpublishVolume 0 0 \"\""}},
    {"1.23 " PUBLISH "1 \"n2\" block/5 rw", "0 0 \"\"", {V "\"n2\" block/5 rw ; 1.23 ControllerPublishVolume 0 0 \"\""}},
    {"1.24 " PUBLISH "1 \"n1\" block/5 ro", "0 0 \"\"", {V "\"n2\" block/5 rw \"n1\" block/5 ro ; 1.24 ControllerPublishVolume 0 0 \"\""}},
    {"1.25 " PUBLISH "2 \"n2\" block/7 rw", "8 0 \"slots\"", {W("live") "1.25 ControllerPublishVolume 8 0 \"slots\""}},
    {"1.26 " PUBLISH "1 \"n3\" mount:\"ext4\"/3 ro", "0 0 \"\"",
     {V "\"n2\" block/5 rw \"n1\" block/5 ro \"n3\" mount:\"ext4\"/3 ro ; 1.26 ControllerPublishVolume 0 0 \"\""}},
    {"1.27 " UNPUBLISH "1 \"n1\"", "0 0 \"\"", {V "\"n2\" block/5 rw \"n3\" mount:\"ext4\"/3 ro ; 1.27 ControllerUnpublishVolume 0 0 \"\""}},
    {"1.28 " DELETE "77", "0 0 \"\"", {0}},
    {"1.29 " UNPUBLISH "77 \"n1\"", "0 0 \"\"", {0}},
    {0},
};

static const step DELETED[] = {
    {"1.30 " DELETE "2", "0 0 \"\"", {W("deleted") "1.30 DeleteVolume 0 0 \"\""}},
    {"1.31 " CREATE "\"w\" 7 0 block/7", "6 0 \"name\"", {W("deleted") "1.31 CreateVolume 6 0 \"name\""}},
    {"1.32 " PUBLISH "2 \"n1\" block/7 rw", "5 0 \"volume\"", {W("deleted") "1.32 ControllerPublishVolume 5 0 \"volume\""}},
    {"1.33 " DELETE "2", "0 0 \"\"", {W("deleted") "1.33 DeleteVolume 0 0 \"\""}},
    {"2.1 " CREATE "\"w\" 3 0 block/6", "0 3 \"\"", {"head 4 2", "gone 2", "3 live \"w\" 3 block/6 ; ; 2.1 CreateVolume 0 3 \"\""}},
    {"1.99 " DELETE "1", "10 0 \"stale\"", {0}},
    {"2.2 " DELETE "3", "0 0 \"\"", {"3 deleted \"w\" 3 block/6 ; ; 2.2 DeleteVolume 0 0 \"\""}},
    {"5.0 " DELETE "3", "0 0 \"\"", {"head 4 5", "gone 3"}},
    {"6.0 " DELETE "3", "0 0 \"\"", {"head 4 6"}},
    {"6.1 node:\"n1\" NodeStageVolume 1 block/1", NULL, {0}}, /* and it tells no change of before */
    {"5.9 " DELETE "77", "10 0 \"stale\"", {0}},
    {"9.1 node:\"n1\" NodeUnstageVolume 1", NULL, {0}},
    {"9.1 " DELETE "reply 0 0 \"\"", NULL, {0}},
    {"9.1 " CREATE "reply 0 1 \"\"", NULL, {0}},
    {0},
};

#define LARGE "4 live \"\\x01\"*128 1000 " EIGHT " ; "
static const step LARGEST[] = {
    {"6.2 " CREATE "\"\\x01\"*128 1000 1000 " EIGHT, "0 4 \"\"", {"head 5 6", LARGE "; 6.2 CreateVolume 0 4 \"\""}},
    {"6.3 " PUBLISH "4 " LONG " mount:\"g\"*128/1 rw", "0 0 \"\"", {LARGE LONG " mount:\"g\"*128/1 rw ; 6.3 ControllerPublishVolume 0 0 \"\""}},
    {"6.4 " DELETE "4", "9 0 " LONG, {LARGE LONG " mount:\"g\"*128/1 rw ; 6.4 DeleteVolume 9 0 " LONG}},
    {"6.4 " DELETE "4", "9 0 " LONG, {0}},
    {"6.5 " UNPUBLISH "4 " LONG, "0 0 \"\"", {LARGE "; 6.5 ControllerUnpublishVolume 0 0 \"\""}},
    {"18446744073709551615.18446744073709551615 " DELETE "4", "0 0 \"\"",
     {"head 5 18446744073709551615", "4 deleted \"\\x01\"*128 1000 " EIGHT " ; ; 18446744073709551615.18446744073709551615 DeleteVolume 0 0 \"\""}},
    {0},
};

void test_controller(void) {
    char config[1 << 10], name[256];
    tested of = {0};
    memset(name, 'n', 255), name[255] = 0;
    snprintf(config, sizeof config,
             "{\"greatest\":1000,\"nodes\":[{\"id\":\"n1\",\"slots\":2},{\"id\":\"n2\",\"slots\":1},{\"slots\":4096,\"id\":\"n3\"},"
             "{\"id\":\"%s\",\"slots\":1}]}",
             name);
    asked how = as_controller(config);
    parts head = parts_of(3, (const char *[]){"head 1 0", NULL});
    makes(&of, how, TUFAYON_DONE, &head, &head);
    play(&of, how, MADE);
    play(&of, how, ATTACHED);
    play(&of, how, DELETED);
    play(&of, how, LARGEST);
    frees(&of);
}
