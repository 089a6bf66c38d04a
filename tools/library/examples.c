/* The examples of docs/FORMATS.md, byte by byte, against which the test's own spelling is held, and which the library has to answer and to open. */
#include "playing.h"
#include <ctype.h>

static bytes hex(const char *digits) {
    bytes it = {0};
    for (; *digits != 0; digits++) {
        unsigned byte;
        if (isspace((unsigned char)*digits)) continue;
        must(sscanf(digits, "%2x", &byte) == 1, "an example of the test is wrong");
        put_number(&it, byte, 1);
        digits++;
    }
    return it;
}

static const char *const FRAMES[][2] = {
    {"1.2 controller DeleteVolume 1", "0000001b 01 02 0000000000000001 0000000000000002 00 0000000000000001"},
    {"1.2 controller DeleteVolume reply 0 0 \"\"", "0000001d 01 82 0000000000000001 0000000000000002 00 00 0000000000000000 00"},
    {"1.1 controller CreateVolume \"v\" 10 0 block/1",
     "00000028 01 01 0000000000000001 0000000000000001 00 0176 000000000000000a 0000000000000000 01 00 01"},
    {"1.1 controller CreateVolume \"v\" 10 0 block/6",
     "00000028 02 01 0000000000000001 0000000000000001 00 0176 000000000000000a 0000000000000000 01 00 06"},
};

/* A controller that made its first volume in session 1, in versions 3 and 2. */
static const char RECORD[] = "03 00000002 0000000000000000 00000012 03 00 0000000000000002 0000000000000001"
                             "0000000000000001 0000002b 03 01 0176 000000000000000a 01 00 01 00"
                             "0000000000000001 0000000000000001 81 00 0000000000000001 00";
static const char OLDER[] = "02 00000002 0000000000000000 0000000a 02 00 0000000000000002"
                            "0000000000000001 0000002b 02 01 0176 000000000000000a 01 00 01 00"
                            "0000000000000001 0000000000000001 81 00 0000000000000001 00";
static const char *const PARTS[] = {"head 2 1", "1 live \"v\" 10 block/1 ; ; 1.1 CreateVolume 0 1 \"\"", NULL};

void test_examples(void) {
    tested of = {0};
    asked how = as_controller("{\"greatest\":1000,\"nodes\":[]}");
    parts head = parts_of(3, (const char *[]){"head 1 0", NULL}), made = parts_of(3, PARTS), older = parts_of(2, PARTS), none = {0};
    bytes whole = hex(RECORD), before = hex(OLDER);
    for (size_t at = 0; at < sizeof FRAMES / sizeof *FRAMES; at++) must(same(frame_of(FRAMES[at][0]), hex(FRAMES[at][1])), "a frame is spelled otherwise");
    must(same(record_of(&made, 3), whole) && same(record_of(&older, 2), before), "a record is spelled otherwise");
    makes(&of, how, TUFAYON_DONE, &head, &head);
    answers(&of, hex(FRAMES[2][1]), frame_of("1.1 controller CreateVolume reply 0 1 \"\""), &made);
    must(same(of.record, whole), "the example of a record is another one");
    frees(&of);
    makes(&of, of_record(how, whole), TUFAYON_DONE, &made, &none);
    frees(&of);
    makes(&of, of_record(how, before), TUFAYON_RENEWED, &made, &made);
    frees(&of);
    before.at[0] = before.at[17] = before.at[39] = 1;
    makes(&of, of_record(how, before), TUFAYON_RENEWED, &made, &made);
    frees(&of);
}
