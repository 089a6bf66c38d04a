/* Streams of frames, and bytes that begin with no frame: docs/FRAMES.md, "Faults of a frame". */
#include "playing.h"

/* A frame of which a byte is another: the place counts from the frame's first byte. */
static const struct {
    const char *line;
    size_t place;
    uint8_t byte;
} FAULTS[] = {
    {"1.1 controller DeleteVolume 1", 4, 0},                             /* version */
    {"1.1 controller DeleteVolume 1", 4, 3},
    {"1.1 controller DeleteVolume 1", 4, 2},                             /* no kind of version 2 */
    {"1.1 controller CreateVolume \"v\" 1 0 block/1", 4, 2},             /* no mode of version 2 alone */
    {"1.1 controller CreateVolume \"v\" 1 0 block/6", 4, 1},             /* no mode of version 1 */
    {"1.1 controller CreateVolume \"v\" 1 0 block/7 block/8", 4, 2},
    {"1.1 controller CreateVolume \"v\" 1 0 block/0", 4, 1},
    {"1.1 controller CreateVolume \"v\" 1 0", 4, 2},                     /* a count of version 1 */
    {"1.1 controller CreateVolume \"v\" 1 0 block/1", 41, 9},            /* count */
    {"1.1 controller DeleteVolume 1", 5, 0},                             /* kind */
    {"1.1 controller DeleteVolume 1", 5, 9},
    {"1.1 controller DeleteVolume 1", 5, 137},
    {"1.1 controller DeleteVolume 1", 22, 1},                            /* party */
    {"1.1 controller DeleteVolume 1", 22, 2},
    {"1.1 node:\"n1\" NodeUnstageVolume 1", 22, 0},
    {"1.1 node:\"n1\" NodeUnstageVolume 1", 23, 0},                      /* texts */
    {"1.1 node:\"n1\" NodeUnstageVolume 1", 23, 200},
    {"1.1 node:\"n1\" NodeUnstageVolume 1", 24, 0xff},
    {"1.1 controller CreateVolume \"v\" 1 0 block/1", 23, 0},
    {"1.1 controller CreateVolume \"v\"*129 1 0 block/1", 4, 1},
    {"1.1 controller CreateVolume \"v\" 1 0 mount:\"e\"*129/1", 4, 1},
    {"1.1 node:\"n1\" NodeUnpublishVolume 1 \"\"", 4, 1},
    {"1.1 controller DeleteVolume 0", 4, 1},                             /* id */
    {"1.1 controller DeleteVolume reply 0 1 \"\"", 4, 1},
    {"1.1 controller CreateVolume reply 0 0 \"\"", 4, 1},
    {"1.1 controller CreateVolume reply 3 1 \"\"", 4, 1},
    {"1.1 controller DeleteVolume reply 17 0 \"\"", 4, 1},               /* status */
    {"1.1 controller ControllerPublishVolume 1 \"n1\" block/1 rw", 34, 2}, /* access */
    {"1.1 controller ControllerPublishVolume 1 \"n1\" block/1 rw", 36, 2}, /* flag */
    {"1.1 controller DeleteVolume 1", 3, 26},                            /* length */
    {"1.1 controller DeleteVolume 1", 3, 0},
};

static void faults(tested *of) {
    for (size_t at = 0; at < sizeof FAULTS / sizeof *FAULTS; at++) {
        bytes frame = frame_of(FAULTS[at].line);
        size_t place = FAULTS[at].place;
        snprintf(doing, sizeof doing, "fault at %zu of %s", place, FAULTS[at].line);
        must(place < frame.size, "a fault of the test is behind its frame");
        frame.at[place] = FAULTS[at].byte;
        refuses(of, frame, TUFAYON_BAD_FRAME);
        for (size_t size = 0; place > 3 && size < frame.size; size++) refuses(of, (bytes){.at = frame.at, .size = size}, TUFAYON_SHORT);
    }
}

/* Lengths: 1,280 is the greatest, and one above it is no frame's, whatever comes. A body is read to its last byte. */
static void lengths(tested *of) {
    bytes longest = {0}, longer = {0}, left = frame_of("1.1 controller DeleteVolume 1");
    snprintf(doing, sizeof doing, "lengths");
    put_number(&longer, 1281, 4);
    refuses(of, longer, TUFAYON_BAD_FRAME);
    put_number(&longest, 1280, 4);
    while (longest.size < 1283) put_number(&longest, 1, 1);
    refuses(of, longest, TUFAYON_SHORT);
    put_number(&longest, 1, 1);
    refuses(of, longest, TUFAYON_BAD_FRAME);
    left.at[3]++;
    refuses(of, left, TUFAYON_SHORT);
    put_number(&left, 0, 1);
    refuses(of, left, TUFAYON_BAD_FRAME);
    refuses(of, (bytes){0}, TUFAYON_SHORT);
}

/* ---- a stream in two pieces */

static const char *const STREAM[] = {
    "1.1 controller CreateVolume \"v\" 10 0 block/1 mount:\"ext4\"/6",  "1.2 node:\"n1\" NodeStageVolume 1 block/1",
    "1.3 controller ControllerPublishVolume 1 \"n1\" mount:\"ext4\"/6 ro", "1.3 controller DeleteVolume reply 0 0 \"\"",
    "1.4 controller DeleteVolume 1",                                    "1.5 controller ControllerUnpublishVolume 1 \"n1\"",
};
static const char *const REPLIES[] = {
    "1.1 controller CreateVolume reply 0 1 \"\"",
    "1.3 controller ControllerPublishVolume reply 0 0 \"\"",
    "1.4 controller DeleteVolume reply 9 0 \"n1\"",
    "1.5 controller ControllerUnpublishVolume reply 0 0 \"\"",
};

/* Answers all whole frames of a buffer: how many bytes they took. */
static size_t answer_all(tufayon_plugin *plugin, const uint8_t *at, size_t size, bytes *replies) {
    size_t taken = 0, used, written;
    uint8_t reply[TUFAYON_REPLY_ROOM];
    uint32_t ending;
    while ((ending = tufayon_answer(plugin, at + taken, size - taken, &used, reply, sizeof reply, &written)) == TUFAYON_DONE) {
        put(replies, reply, written);
        taken += used;
        cases++;
    }
    must(ending == TUFAYON_SHORT, "a stream is at fault");
    return taken;
}

static void pieces(void) {
    bytes stream = {0}, wanted = {0};
    asked how = as_controller("{\"greatest\":1000,\"nodes\":[{\"id\":\"n1\",\"slots\":1}]}");
    for (size_t at = 0; at < sizeof STREAM / sizeof *STREAM; at++) put(&stream, frame_of(STREAM[at]).at, frame_of(STREAM[at]).size);
    for (size_t at = 0; at < sizeof REPLIES / sizeof *REPLIES; at++) put(&wanted, frame_of(REPLIES[at]).at, frame_of(REPLIES[at]).size);
    for (size_t cut = 0; cut <= stream.size; cut++) {
        tufayon_plugin plugin = {0};
        bytes replies = {0};
        snprintf(doing, sizeof doing, "a stream that is cut at %zu", cut);
        must(tufayon_controller_new(how.name.at, how.name.size, &plugin) == TUFAYON_DONE, "a controller isn't made");
        size_t taken = answer_all(&plugin, stream.at, cut, &replies);
        taken += answer_all(&plugin, stream.at + taken, stream.size - taken, &replies);
        must(taken == stream.size && same(replies, wanted), "a stream that is cut has other replies");
        tufayon_free(&plugin);
    }
}

void test_frames(void) {
    tested controller = {0}, node = {0};
    asked how = as_controller("{\"greatest\":1000,\"nodes\":[{\"id\":\"n1\",\"slots\":1}]}");
    parts head = parts_of(3, (const char *[]){"head 1 0", NULL}), node_head = parts_of(3, (const char *[]){"head \"n1\" 0", NULL});
    makes(&controller, how, TUFAYON_DONE, &head, &head);
    faults(&controller);
    lengths(&controller);
    play_one(&controller, "1.1 controller CreateVolume \"v\" 10 0 block/1", "0 1 \"\"",
             (const char *[]){"head 2 1", "1 live \"v\" 10 block/1 ; ; 1.1 CreateVolume 0 1 \"\"", NULL});
    faults(&controller); /* and what it told before stays */
    makes(&node, as_node("n1"), TUFAYON_DONE, &node_head, &node_head);
    faults(&node);
    lengths(&node);
    pieces();
    frees(&controller);
    frees(&node);
}
