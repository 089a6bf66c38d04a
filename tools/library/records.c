/* Records of three versions, and what isn't one: docs/RECORDS.md, "Records". */
#include "playing.h"

#define CONFIG "{\"greatest\":1000,\"nodes\":[{\"id\":\"n1\",\"slots\":4},{\"id\":\"n2\",\"slots\":4}]}"

static const char *const CONTROLLER[] = {
    "head 9 4",
    "1 live \"v\" 10 block/1 block/5 mount:\"ext4\"/3 ; \"n1\" block/5 rw \"n2\" mount:\"ext4\"/3 ro ; 3.7 ControllerPublishVolume 0 0 \"\"",
    "2 deleted \"w\" 9223372036854775807 block/4 ; ; 4.1 DeleteVolume 0 0 \"\"",
    "3 live \"x\" 1 mount:\"\"/2 ; \"elsewhere\" mount:\"\"/2 ro ; 2.1 ControllerUnpublishVolume 9 0 \"n1\"",
    "8 live \"y\" 1 block/1 ; ; 1.1 CreateVolume 0 8 \"\"",
    NULL,
};
/* What the same parts are read as where the head has no session: the greatest of the last calls. */
static const char *const OLDER[] = {
    "head 9 0",
    "1 live \"v\" 10 block/1 block/5 mount:\"ext4\"/3 ; \"n1\" block/5 rw \"n2\" mount:\"ext4\"/3 ro ; 3.7 ControllerPublishVolume 0 0 \"\"",
    "2 deleted \"w\" 9223372036854775807 block/4 ; ; 4.1 DeleteVolume 0 0 \"\"",
    "3 live \"x\" 1 mount:\"\"/2 ; \"elsewhere\" mount:\"\"/2 ro ; 2.1 ControllerUnpublishVolume 9 0 \"n1\"",
    "5 deleted \"z\" 1 block/1 ; ; 3.9 DeleteVolume 0 0 \"\"",
    "8 live \"y\" 1 block/1 ; ; 1.1 CreateVolume 0 8 \"\"",
    NULL,
};
static const char *const NODE[] = {
    "head \"n1\" 4",
    "1 block/5 ; \"/a\" rw \"/b\" ro ; 3.7 NodePublishVolume 0 0 \"\"",
    "2 - ; ; 4.1 NodeUnstageVolume 0 0 \"\"",
    "18446744073709551615 mount:\"xfs\"/1 ; \"/\" ro ; 1.1 NodeUnstageVolume 9 0 \"/\"",
    NULL,
};
static const char *const NODE_OLDER[] = {
    "head \"n1\" 0",
    "1 block/5 ; \"/a\" rw \"/b\" ro ; 3.7 NodePublishVolume 0 0 \"\"",
    "2 - ; ; 4.1 NodeUnstageVolume 0 0 \"\"",
    "3 - ; ; 3.9 NodeUnstageVolume 0 0 \"\"",
    "18446744073709551615 mount:\"xfs\"/1 ; \"/\" ro ; 1.1 NodeUnstageVolume 9 0 \"/\"",
    NULL,
};

/* A record of these lines, in this version, is opened as these parts. */
static void opens(asked how, int version, const char *const *lines, const char *const *as) {
    tested of = {0};
    parts given = parts_of(version, lines), store = parts_of(3, as), none = {0};
    snprintf(doing, sizeof doing, "a record of version %d, %s ..", version, lines[1] ? lines[1] : lines[0]);
    makes(&of, of_record(how, record_of(&given, version)), version == 3 ? TUFAYON_DONE : TUFAYON_RENEWED, &store, version == 3 ? &none : &store);
    compares(&of, how);
    frees(&of);
}

void test_records(void) {
    asked controller = as_controller(CONFIG), node = as_node("n1");
    opens(controller, 3, CONTROLLER, CONTROLLER);
    opens(node, 3, NODE, NODE);
    for (int version = 1; version <= 2; version++) {
        opens(controller, version, OLDER, CONTROLLER);
        opens(node, version, NODE_OLDER, NODE);
        opens(controller, version, (const char *[]){"head 1 0", NULL}, (const char *[]){"head 1 0", NULL});
        opens(node, version, (const char *[]){"head \"n1\" 0", NULL}, (const char *[]){"head \"n1\" 0", NULL});
    }
    opens(controller, 3, (const char *[]){"head 0 18446744073709551615", NULL}, (const char *[]){"head 0 18446744073709551615", NULL});
    static const char *const NEW[] = {"head 3 1", "1 live \"v\" 10 block/6 ; \"n9\" block/6 rw ; 1.1 CreateVolume 0 1 \"\"",
                                      "2 live \"w\" 1 mount:\"a\"/7 ; ; 1.0 CreateVolume 0 2 \"\"", NULL};
    opens(controller, 3, NEW, NEW);
    opens(controller, 2, NEW, NEW);
}

/* ---- what isn't a record */

static const char *const NO_CONTROLLER[][6] = {
    {"head \"n1\" 1"},                                                       /* another plugin's head */
    {"1 live \"v\" 10 block/1 ; ; 1.1 CreateVolume 0 1 \"\""},                /* no head */
    {"head 3 1", "head 3 1"},                                                /* keys that don't rise */
    {"head 3 1", "2 live \"v\" 10 block/1 ; ; 1.1 CreateVolume 0 2 \"\"", "1 live \"w\" 10 block/1 ; ; 1.1 CreateVolume 0 1 \"\""},
    {"head 3 1", "1 live \"v\" 10 block/1 ; ; 1.1 CreateVolume 0 1 \"\"", "1 live \"w\" 10 block/1 ; ; 1.1 CreateVolume 0 1 \"\""},
    {"head 3 1", "3 live \"v\" 10 block/1 ; ; 1.1 CreateVolume 0 3 \"\""},    /* an id that wasn't given */
    {"head 3 1", "1 live \"v\" 10 block/1 ; ; 1.1 CreateVolume 0 1 \"\"", "2 live \"v\" 10 block/1 ; ; 1.1 CreateVolume 0 2 \"\""}, /* a name twice */
    {"head 3 1", "1 live \"\" 10 block/1 ; ; 1.1 CreateVolume 0 1 \"\""},
    {"head 3 1", "1 live \"v\"*129 10 block/1 ; ; 1.1 CreateVolume 0 1 \"\""},
    {"head 3 1", "1 live \"\\xff\" 10 block/1 ; ; 1.1 CreateVolume 0 1 \"\""},
    {"head 3 1", "1 live \"v\" 0 block/1 ; ; 1.1 CreateVolume 0 1 \"\""},     /* capacity */
    {"head 3 1", "1 live \"v\" 9223372036854775808 block/1 ; ; 1.1 CreateVolume 0 1 \"\""},
    {"head 3 1", "1 live \"v\" 10 ; ; 1.1 CreateVolume 0 1 \"\""},            /* capabilities */
    {"head 3 1", "1 live \"v\" 10 block/0 ; ; 1.1 CreateVolume 0 1 \"\""},
    {"head 3 1", "1 live \"v\" 10 block/8 ; ; 1.1 CreateVolume 0 1 \"\""},
    {"head 3 1", "1 live \"v\" 10 mount:\"e\"*129/1 ; ; 1.1 CreateVolume 0 1 \"\""},
    {"head 3 1", "1 live \"v\" 10 block/1 block/2 block/3 block/4 block/5 block/1 block/2 block/3 block/4 ; ; 1.1 CreateVolume 0 1 \"\""},
    {"head 3 1", "1 live \"v\" 10 block/5 ; \"n1\" block/5 rw \"n1\" block/5 rw ; 1.1 CreateVolume 0 1 \"\""}, /* holdings */
    {"head 3 1", "1 live \"v\" 10 block/5 ; \"n1\" block/4 rw ; 1.1 CreateVolume 0 1 \"\""},
    {"head 3 1", "1 live \"v\" 10 block/1 ; \"n1\" block/1 rw \"n2\" block/1 ro ; 1.1 CreateVolume 0 1 \"\""},
    {"head 3 1", "1 live \"v\" 10 block/4 ; \"n1\" block/4 rw \"n2\" block/4 rw ; 1.1 CreateVolume 0 1 \"\""},
    {"head 3 1", "1 live \"v\" 10 block/4 block/5 ; \"n1\" block/4 rw \"n2\" block/5 rw ; 1.1 CreateVolume 0 1 \"\""},
    {"head 3 1", "1 live \"v\" 10 block/7 ; \"n1\" block/7 rw \"n2\" block/7 rw ; 1.1 CreateVolume 0 1 \"\""},
    {"head 3 1", "1 live \"v\" 10 block/5 ; \"\" block/5 rw ; 1.1 CreateVolume 0 1 \"\""},
    {"head 3 1", "1 deleted \"v\" 10 block/1 ; \"n1\" block/1 rw ; 1.1 DeleteVolume 0 0 \"\""},
    {"head 3 1", "1 live \"v\" 10 block/1 ; ; 1.1 NodeStageVolume 0 0 \"\""},  /* kept replies */
    {"head 3 1", "1 live \"v\" 10 block/1 ; ; 1.1 CreateVolume 0 0 \"\""},
    {"head 3 1", "1 live \"v\" 10 block/1 ; ; 1.1 CreateVolume 3 1 \"\""},
    {"head 3 1", "1 live \"v\" 10 block/1 ; ; 1.1 DeleteVolume 0 1 \"\""},
    {"head 3 1", "1 live \"v\" 10 block/1 ; ; 1.1 DeleteVolume 17 0 \"\""},
    {"head 3 1", "1 live \"v\" 10 block/1 ; ; 1.1 DeleteVolume 9 0 \"\\xff\""},
    {"head 3 1", "1 block/1 ; ; 1.1 NodeStageVolume 0 0 \"\""},               /* a node's row */
    {"head 3 1", "1 live \"v\" 10 block/1 ; ; 2.1 CreateVolume 0 1 \"\""},    /* sessions, which version 3 alone has */
    {"head 3 2", "1 deleted \"v\" 10 block/1 ; ; 1.1 DeleteVolume 0 0 \"\""},
};
enum { OF_SESSIONS = 2 }; /* so many at the end are bad in version 3 alone */

static const char *const NO_NODE[][4] = {
    {"head \"n2\" 1"},                                                       /* another node's */
    {"head \"n1n1\" 1"},
    {"head \"\" 1"},
    {"head 3 1"},
    {"1 block/1 ; ; 1.1 NodeStageVolume 0 0 \"\""},
    {"head \"n1\" 1", "2 block/1 ; ; 1.1 NodeStageVolume 0 0 \"\"", "1 block/1 ; ; 1.1 NodeStageVolume 0 0 \"\""},
    {"head \"n1\" 1", "1 block/1 ; ; 1.1 NodeStageVolume 0 0 \"\"", "1 block/1 ; ; 1.1 NodeStageVolume 0 0 \"\""},
    {"head \"n1\" 1", "1 block/0 ; ; 1.1 NodeStageVolume 0 0 \"\""},
    {"head \"n1\" 1", "1 block/8 ; ; 1.1 NodeStageVolume 0 0 \"\""},
    {"head \"n1\" 1", "1 block/5 ; \"a\" rw ; 1.1 NodeStageVolume 0 0 \"\""},
    {"head \"n1\" 1", "1 block/5 ; \"\" rw ; 1.1 NodeStageVolume 0 0 \"\""},
    {"head \"n1\" 1", "1 block/5 ; \"/a\" rw \"/a\" ro ; 1.1 NodeStageVolume 0 0 \"\""},
    {"head \"n1\" 1", "1 block/1 ; \"/a\" rw \"/b\" ro ; 1.1 NodeStageVolume 0 0 \"\""},
    {"head \"n1\" 1", "1 - ; \"/a\" rw ; 1.1 NodeStageVolume 0 0 \"\""},
    {"head \"n1\" 1", "1 block/1 ; ; 1.1 CreateVolume 0 1 \"\""},
    {"head \"n1\" 1", "1 block/1 ; ; 1.1 NodeStageVolume 0 1 \"\""},
    {"head \"n1\" 1", "1 block/1 ; ; 1.1 NodeStageVolume 17 0 \"\""},
    {"head \"n1\" 1", "1 live \"v\" 10 block/1 ; ; 1.1 CreateVolume 0 1 \"\""},
    {"head \"n1\" 1",
     "1 block/5 ; \"/1\" rw \"/2\" rw \"/3\" rw \"/4\" rw \"/5\" rw \"/6\" rw \"/7\" rw \"/8\" rw \"/9\" rw \"/10\" rw \"/11\" rw \"/12\" rw \"/13\" rw "
     "\"/14\" rw \"/15\" rw \"/16\" rw \"/17\" rw ; 1.1 NodeStageVolume 0 0 \"\""},
    {"head \"n1\" 1", "1 block/1 ; ; 2.1 NodeStageVolume 0 0 \"\""},
    {"head \"n1\" 2", "1 - ; ; 1.1 NodeUnstageVolume 0 0 \"\""},
};

static void is_none(tested *of, asked how, bytes record) { makes(of, of_record(how, record), TUFAYON_BAD_RECORD, NULL, NULL); }

/* What isn't one by its rows. */
static void lines(tested *of, asked how, const char *const *rows, bool is_of_session) {
    for (int version = is_of_session ? 3 : 1; version <= 3; version++) {
        parts given = parts_of(version, rows);
        snprintf(doing, sizeof doing, "no record of version %d: %s, %s ..", version, rows[0], rows[1] ? rows[1] : "");
        is_none(of, how, record_of(&given, version));
    }
}

/* The plugin of a record that has this byte at this place: where there is one, it is that record's, and no other. */
static void changed(tested *of, asked how, bytes record, size_t place, uint8_t byte) {
    uint8_t was = record.at[place], to[1 << 10];
    size_t written;
    asked it = of_record(how, record);
    record.at[place] = byte;
    snprintf(doing, sizeof doing, "a record with %d at %zu", byte, place);
    uint32_t ending = it.kind == AS_CONTROLLER ? tufayon_controller_from_record(it.name.at, it.name.size, record.at, record.size, &of->plugin)
                                            : tufayon_node_from_record(it.name.at, it.name.size, record.at, record.size, &of->plugin);
    cases++;
    must(ending == TUFAYON_BAD_RECORD || ending == (record.at[0] == 3 ? TUFAYON_DONE : TUFAYON_RENEWED), "a damaged record has another ending");
    if (ending != TUFAYON_BAD_RECORD) {
        must(tufayon_record(&of->plugin, to, sizeof to, &written) == TUFAYON_DONE, "the plugin of a changed record has none");
        must(ending == TUFAYON_RENEWED || same(record, (bytes){.at = to, .size = written}), "the plugin of a changed record has another one");
        tufayon_free(&of->plugin);
    }
    record.at[place] = was;
}

/* A record that ends too early or too late, or that has another byte. */
static void damages(tested *of, asked how, int version, const char *const *rows) {
    parts given = parts_of(version, rows);
    bytes record = record_of(&given, version);
    for (size_t size = 0; size < record.size; size++) {
        snprintf(doing, sizeof doing, "%zu bytes of a record of version %d", size, version);
        is_none(of, how, (bytes){.at = record.at, .size = size});
    }
    for (size_t place = 0; place < record.size; place++)
        for (int byte = 0; byte < 256; byte++)
            if (byte != record.at[place]) changed(of, how, record, place, (uint8_t)byte);
    for (uint8_t other = 0; other < 5; other++) { /* the whole's version, the head's, and a row's */
        size_t places[] = {0, 17, 17 + given.at[0].value.size + 12};
        for (size_t at = 0; at < 3; at++) {
            if (other == version) continue;
            snprintf(doing, sizeof doing, "version %d at %zu in a record of version %d", other, places[at], version);
            record.at[places[at]] = other;
            is_none(of, how, record);
            record.at[places[at]] = (uint8_t)version;
        }
    }
    put_number(&record, 0, 1);
    snprintf(doing, sizeof doing, "a byte behind a record of version %d", version);
    is_none(of, how, record);
}

void test_damaged(void) {
    tested of = {0};
    asked controller = as_controller(CONFIG), node = as_node("n1");
    size_t count = sizeof NO_CONTROLLER / sizeof *NO_CONTROLLER, node_count = sizeof NO_NODE / sizeof *NO_NODE;
    for (size_t at = 0; at < count; at++) lines(&of, controller, NO_CONTROLLER[at], at + OF_SESSIONS >= count);
    for (size_t at = 0; at < node_count; at++) lines(&of, node, NO_NODE[at], at + OF_SESSIONS >= node_count);
    static const char *const NEW[] = {"head 3 1", "1 live \"v\" 10 block/6 ; ; 1.1 CreateVolume 0 1 \"\"", NULL};
    static const char *const NEW_NODE[] = {"head \"n1\" 1", "1 block/7 ; ; 1.1 NodeStageVolume 0 0 \"\"", NULL};
    parts new = parts_of(1, NEW), new_node = parts_of(1, NEW_NODE), none = {0};
    snprintf(doing, sizeof doing, "a mode that version 1 hasn't, or no part");
    is_none(&of, controller, record_of(&new, 1));
    is_none(&of, node, record_of(&new_node, 1));
    for (int version = 0; version <= 4; version++) is_none(&of, controller, record_of(&none, version)), is_none(&of, node, record_of(&none, version));
    damages(&of, controller, 3, CONTROLLER);
    damages(&of, node, 3, NODE);
    for (int version = 1; version <= 2; version++) damages(&of, controller, version, OLDER), damages(&of, node, version, NODE_OLDER);
}
