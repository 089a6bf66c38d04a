/* Handles, and what a plugin is asked for by: configurations and ids that are refused, and those that aren't. */
#include "playing.h"

#define NODES(text) "{\"greatest\":1000,\"nodes\":[" text "]}"

static const char *const CONFIGS[] = {
    "{\"greatest\":1,\"nodes\":[]}",
    "{\"nodes\":[],\"greatest\":9223372036854775807}",
    " { \"greatest\" : 0 , \"greatest\" : 5 , \"nodes\" : [ ] } \n",
    NODES("{\"id\":\"n1\",\"slots\":0},{\"slots\":4096,\"id\":\"n\\u00e92\"}"),
};

static const char *const NO_CONFIGS[] = {
    "", "nothing", "[]", "{}", "{\"greatest\":1000}", "{\"nodes\":[]}", "{\"greatest\":1000,\"nodes\":[],\"more\":1}", "{\"greatest\":1000,\"nodes\":{}}",
    "{\"greatest\":0,\"nodes\":[]}", "{\"greatest\":9223372036854775808,\"nodes\":[]}", "{\"greatest\":1.0,\"nodes\":[]}", "{\"greatest\":1e2,\"nodes\":[]}",
    "{\"greatest\":-0,\"nodes\":[]}", "{\"greatest\":\"1\",\"nodes\":[]}", "{\"greatest\":1000,\"nodes\":[]} 1", "{\"greatest\":1000,\"nodes\":[]",
    NODES("1"), NODES("{\"id\":\"n1\"}"), NODES("{\"id\":\"n1\",\"slots\":4097}"), NODES("{\"id\":\"\",\"slots\":1}"), NODES("{\"id\":1,\"slots\":1}"),
    NODES("{\"id\":\"n1\",\"slots\":1},{\"id\":\"n1\",\"slots\":2}"), NODES("{\"id\":\"n1\",\"slots\":1,\"more\":1}"), "{\"greatest\":1000,\"nodes\":[]}\xff",
    NODES("{\"id\":\"\xc3\",\"slots\":1}"), "{\"config\":{\"greatest\":1,\"nodes\":[]},\"events\":[]}",
};

static void configs(tested *of, const parts *head) {
    for (size_t at = 0; at < sizeof CONFIGS / sizeof *CONFIGS; at++) {
        snprintf(doing, sizeof doing, "configuration %s", CONFIGS[at]);
        makes(of, as_controller(CONFIGS[at]), TUFAYON_DONE, head, head);
        compares(of, as_controller(CONFIGS[at]));
        frees(of);
    }
    for (size_t at = 0; at < sizeof NO_CONFIGS / sizeof *NO_CONFIGS; at++) {
        snprintf(doing, sizeof doing, "no configuration %s", NO_CONFIGS[at]);
        makes(of, as_controller(NO_CONFIGS[at]), TUFAYON_BAD_NAME, NULL, NULL);
        makes(of, of_record(as_controller(NO_CONFIGS[at]), record_of(head, 3)), TUFAYON_BAD_NAME, NULL, NULL);
    }
}

/* A megabyte between a front and an end is no configuration either. */
static void long_configs(tested *of) {
    static const char *const ROWS[][3] = {{"", "x", ""}, {"{\"greatest\":1000,\"nodes\":[", " ", ""}, {"{\"greatest\":1,", " ", "\"nodes\":[],\"more\":1}"}};
    for (size_t at = 0; at < sizeof ROWS / sizeof *ROWS; at++) {
        asked it = {.kind = AS_CONTROLLER};
        snprintf(doing, sizeof doing, "a long configuration, %s ..", ROWS[at][0]);
        put(&it.name, ROWS[at][0], strlen(ROWS[at][0]));
        for (size_t more = 0; more < 1 << 20; more++) put(&it.name, ROWS[at][1], 1);
        put(&it.name, ROWS[at][2], strlen(ROWS[at][2]));
        makes(of, it, TUFAYON_BAD_NAME, NULL, NULL);
    }
}

/* So many nodes: 64 are the most. */
static void many_nodes(tested *of, int count, uint32_t ending, const parts *head) {
    static char config[1 << 13];
    size_t at = (size_t)sprintf(config, "{\"greatest\":1000,\"nodes\":[");
    for (int node = 0; node < count; node++) at += (size_t)sprintf(config + at, "%s{\"id\":\"n%d\",\"slots\":1}", node > 0 ? "," : "", node);
    sprintf(config + at, "]}");
    snprintf(doing, sizeof doing, "%d nodes", count);
    makes(of, as_controller(config), ending, head, head);
}

/* An id of so many such bytes. */
static asked long_id(char byte, size_t size) {
    asked it = {.kind = AS_NODE};
    for (size_t at = 0; at < size; at++) put(&it.name, &byte, 1);
    return it;
}

static void ids(tested *of) {
    static const char *const NONE[] = {"", "\xff", "n\xc3", "\xc0\x80", "\xed\xa0\x80", "\xf4\x90\x80\x80"};
    parts head = parts_of(3, (const char *[]){"head \"n\"*255 0", NULL}), other = parts_of(3, (const char *[]){"head \"\\xe2\\x82\\xac\\x00\" 0", NULL});
    asked odd = as_node("\xe2\x82\xac");
    put_number(&odd.name, 0, 1);
    snprintf(doing, sizeof doing, "ids");
    makes(of, long_id('n', 255), TUFAYON_DONE, &head, &head);
    frees(of);
    makes(of, odd, TUFAYON_DONE, &other, &other);
    compares(of, odd);
    frees(of);
    makes(of, long_id('n', 256), TUFAYON_BAD_NAME, NULL, NULL);
    makes(of, long_id('n', 1 << 16), TUFAYON_BAD_NAME, NULL, NULL);
    for (size_t at = 0; at < sizeof NONE / sizeof *NONE; at++) {
        makes(of, as_node(NONE[at]), TUFAYON_BAD_NAME, NULL, NULL);
        makes(of, of_record(as_node(NONE[at]), record_of(&head, 3)), TUFAYON_BAD_NAME, NULL, NULL);
    }
}

/* A handle that has a plugin keeps it, whatever is asked for. */
static void is_full(tested *of, asked own) {
    parts head = parts_of(3, (const char *[]){"head 1 0", NULL}), node_head = parts_of(3, (const char *[]){"head \"n1\" 0", NULL});
    makes(of, own, TUFAYON_FULL, NULL, NULL);
    makes(of, as_controller(CONFIGS[0]), TUFAYON_FULL, NULL, NULL);
    makes(of, as_controller("nothing"), TUFAYON_FULL, NULL, NULL);
    makes(of, as_node(""), TUFAYON_FULL, NULL, NULL);
    makes(of, of_record(as_controller(CONFIGS[0]), record_of(&head, 2)), TUFAYON_FULL, NULL, NULL);
    makes(of, of_record(as_node("n1"), record_of(&node_head, 3)), TUFAYON_FULL, NULL, NULL);
    makes(of, of_record(as_node("n1"), (bytes){0}), TUFAYON_FULL, NULL, NULL);
}

void test_handles(void) {
    parts head = parts_of(3, (const char *[]){"head 1 0", NULL}), node_head = parts_of(3, (const char *[]){"head \"n1\" 0", NULL});
    tested of = {0}, other = {0};
    frees(&of); /* an empty one stays so */
    frees(&of);
    configs(&of, &head);
    long_configs(&of);
    many_nodes(&of, 64, TUFAYON_DONE, &head);
    is_full(&of, as_controller(CONFIGS[0]));
    makes(&other, as_node("n1"), TUFAYON_DONE, &node_head, &node_head); /* handles have nothing in common */
    is_full(&other, as_node("n1"));
    frees(&of);
    compares(&other, as_node("n1"));
    frees(&other);
    frees(&other);
    many_nodes(&of, 65, TUFAYON_BAD_NAME, NULL);
    ids(&of);
}
