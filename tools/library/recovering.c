/* An orchestrator that lost its store: include/tufayon.h, "Recovery". */
#include "calls.h"
#include "playing.h"
#include <stdarg.h>
#include <time.h>

#define CONFIG "{\"greatest\":1000,\"nodes\":[{\"id\":\"n1\",\"slots\":9},{\"id\":\"n2\",\"slots\":9},{\"id\":\"n3\",\"slots\":9}]}"
#define NEXT "1048581" /* the session after that of the recovery */
#define S 1048580      /* 2^20 above the greatest that was heard of, 4 */

/* The plugins of a set, the nodes in a row. */
typedef struct set {
    tested controller, *nodes;
    size_t count;
    tufayon_plugin *row; /* their handles while a call has them */
} set;

static tufayon_plugin *row_of(set *of) {
    of->row = grow(NULL, (of->count + 1) * sizeof *of->row);
    for (size_t at = 0; at < of->count; at++) of->row[at] = of->nodes[at].plugin;
    return of->row;
}

static void put_back(set *of) {
    for (size_t at = 0; at < of->count; at++) of->nodes[at].plugin = of->row[at];
    give_back(of->row);
}

static void stay(set *of) {
    is_as_it_was(&of->controller);
    for (size_t at = 0; at < of->count; at++) is_as_it_was(&of->nodes[at]);
}

static set set_of(const char *const *controller, const char *const *const *nodes, size_t count) {
    set it = {.nodes = grow(NULL, (count + 1) * sizeof(tested)), .count = count};
    parts store = parts_of(3, controller), none = {0};
    memset(it.nodes, 0, (count + 1) * sizeof(tested));
    makes(&it.controller, of_record(as_controller(CONFIG), record_of(&store, 3)), TUFAYON_DONE, &store, &none);
    for (size_t at = 0; at < count; at++) {
        char id[8] = {0};
        sscanf(nodes[at][0], "head \"%7[^\"]", id);
        store = parts_of(3, nodes[at]);
        makes(&it.nodes[at], of_record(as_node(id), record_of(&store, 3)), TUFAYON_DONE, &store, &none);
    }
    return it;
}

static void free_set(set *of) {
    frees(&of->controller);
    for (size_t at = 0; at < of->count; at++) frees(&of->nodes[at]);
    give_back(of->nodes);
}

/* ---- calls, of which each allocation is refused once */

enum { ONCE_MORE = -1 };

/* Before a call, and behind it: its ending, or that it is made once more. */
static void before(unsigned long at) { refuse(stride > 0 ? at : 0); }
static long behind(size_t row, uint32_t ending) {
    bool was = was_refused;
    refuse(0);
    cases++;
    refusals += was;
    see(row, ending);
    return was && ending == TUFAYON_NO_MEMORY ? ONCE_MORE : (long)ending;
}

static void raises(tested *of, uint64_t session, uint32_t ending, const parts *changes) {
    long got = ONCE_MORE;
    for (unsigned long at = 1; got == ONCE_MORE; at += stride) {
        before(at);
        got = behind(ROW_RAISE, tufayon_raise(&of->plugin, session));
        if (got != TUFAYON_DONE) is_as_it_was(of);
    }
    must(got == (long)ending, "a session is raised, or isn't, against what is expected");
    if (ending != TUFAYON_DONE) return;
    of->told = copy_of(changes);
    for (size_t at = 0; at < changes->count; at++) change(&of->store, changes->at[at]);
    compare(of);
}

static void in_session_of(set *of, uint64_t known, uint32_t ending, uint64_t session) {
    long got = ONCE_MORE;
    for (unsigned long at = 1; got == ONCE_MORE; at += stride) {
        uint64_t told = 77;
        long blocks = held;
        tufayon_plugin *row = row_of(of);
        before(at);
        got = behind(ROW_SESSION, tufayon_recovery_session(known, &of->controller.plugin, row, of->count, &told));
        put_back(of);
        must(held == blocks, "the session of a recovery leaves blocks");
        must(told == (got == TUFAYON_DONE ? session : 77), "a recovery has another session, or one where it has none");
    }
    must(got == (long)ending, "the session of a recovery has another ending");
    stay(of);
}

static void recovers(tested *made, set *of, const char *config, uint64_t session, uint32_t ending, uint64_t place, const parts *store) {
    bool says = ending == TUFAYON_SAME_NODE || ending == TUFAYON_DISAGREES || ending == TUFAYON_BAD_ROW;
    long got = ONCE_MORE;
    for (unsigned long at = 1; got == ONCE_MORE; at += stride) {
        uint64_t told = 77;
        long blocks = held;
        tufayon_plugin *row = row_of(of);
        before(at);
        got = behind(ROW_RECOVERED, tufayon_orchestrator_recovered((const uint8_t *)config, strlen(config), session, &of->controller.plugin, row, of->count,
                                                                  &made->plugin, &told));
        put_back(of);
        must(got == TUFAYON_DONE || held == blocks, "an orchestrator that isn't recovered leaves blocks");
        must(told == (says && got == (long)ending ? place : 77), "a refused recovery has another place, or one where there is none");
        if (got != TUFAYON_DONE) is_as_it_was(made);
    }
    must(got == (long)ending, "an orchestrator is recovered, or isn't, against what is expected");
    stay(of);
    if (ending == TUFAYON_DONE) was_made(made, store, store);
}

/* ---- a set that is used */

static const char *const CONTROLLER[] = {
    "head 7 4",
    "1 live \"v\" 10 block/1 ; \"n1\" block/1 rw ; 1.3 ControllerPublishVolume 0 0 \"\"",
    "2 live \"both\" 20 block/5 block/1 ; \"n1\" block/5 rw \"n2\" block/5 ro ; 3.2 ControllerPublishVolume 0 0 \"\"",
    "3 live \"free\" 5 block/1 ; ; 2.2 CreateVolume 0 3 \"\"",
    "4 live \"cut\" 7 block/1 ; \"n2\" block/1 rw ; 3.4 ControllerPublishVolume 0 0 \"\"",
    "5 live \"left\" 1 block/1 ; \"n3\" block/1 rw ; 3.5 ControllerPublishVolume 0 0 \"\"",
    "6 deleted \"gone\" 1 block/1 ; ; 4.7 DeleteVolume 0 0 \"\"",
    NULL,
};
static const char *const N1[] = {
    "head \"n1\" 4",
    "1 block/1 ; \"/a\" rw ; 1.4 NodePublishVolume 0 0 \"\"",
    "2 block/5 ; \"/b\" rw \"/c\" rw ; 3.9 NodePublishVolume 0 0 \"\"",
    NULL,
};
static const char *const N2[] = {
    "head \"n2\" 3",
    "2 block/5 ; \"/x\" ro ; 3.3 NodePublishVolume 0 0 \"\"",
    "4 block/1 ; ; 3.5 NodeStageVolume 0 0 \"\"",
    "9 - ; ; 3.8 NodeUnstageVolume 0 0 \"\"",
    NULL,
};
static const char *const *const NODES[] = {N1, N2};

/* What is recovered: n3 is lost, and what was staged and published nowhere is to be stopped. */
static const char *const RECOVERED[] = {
    "nodes " NEXT " \"n1\" \"n2\" \"n3\"",
    "1 volume \"v\" 10 0 block/1 ; 1 yes none 0 ; \"n1\" block/1 rw yes yes \"/a\" yes ,",
    "2 volume \"both\" 20 0 block/5 block/1 ; 2 yes none 0 ; \"n1\" block/5 rw yes yes \"/b\" yes \"/c\" yes , \"n2\" block/5 ro yes yes \"/x\" yes ,",
    "3 volume \"free\" 5 0 block/1 ; 3 yes none 0 ;",
    "4 volume \"cut\" 7 0 block/1 ; 4 yes stop \"n2\" \"/\" 1 ; \"n2\" block/1 rw yes maybe \"/\" no ,",
    "5 volume \"left\" 1 0 block/1 ; 5 yes none 0 ; \"n3\" block/1 rw yes no ,",
    NULL,
};

/* What goes on: the stop of what was cut short, a lost node's attachment, and what is used. */
static const asking UNDONE[] = {
    {"timeout \"cut\"", NEXT ".1 node:\"n2\" NodeUnstageVolume 4", 0, 0,
     {"4 volume \"cut\" 7 0 block/1 ; 4 yes stop \"n2\" \"/\" 2 ; \"n2\" block/1 rw yes maybe \"/\" no ,"}},
    {"deliver " NEXT ".1 node:\"n2\" NodeUnstageVolume reply 0 0 \"\"", NEXT ".2 controller ControllerUnpublishVolume 4 \"n2\"", 0, 0,
     {"4 volume \"cut\" 7 0 block/1 ; 4 yes stop \"n2\" \"/\" 1 ; \"n2\" block/1 rw maybe no \"/\" no ,"}},
    {"deliver " NEXT ".2 controller ControllerUnpublishVolume reply 0 0 \"\"", NULL, 0, 0, {"4 volume \"cut\" 7 0 block/1 ; 4 yes none 0 ;"}},
    {"use \"v\" \"n2\" \"/z\" block/1 rw", NULL, TUFAYON_REFUSED, 7, {0}},      /* HeldElsewhere */
    {"create \"v\" 10 10 block/1", NULL, TUFAYON_REFUSED, 1, {0}},              /* NameUsed */
    {"stop \"left\" \"n3\" \"/any\"", NEXT ".3 controller ControllerUnpublishVolume 5 \"n3\"", 0, 0,
     {"5 volume \"left\" 1 0 block/1 ; 5 yes stop \"n3\" \"/any\" 1 ; \"n3\" block/1 rw maybe no ,"}},
    {"create \"gone\" 1 0 block/1", NEXT ".4 controller CreateVolume \"gone\" 1 0 block/1", 0, 0, {"6 volume \"gone\" 1 0 block/1 ; - maybe create 1 ;"}},
    {0},
};

/* Calls of the lost orchestrator, and of the new one, once the session was raised. */
static const step OF_CONTROLLER[] = {
    {"4.9 controller CreateVolume \"late\" 1 0 block/1", "10 0 \"stale\"", {0}},
    {"4.8 controller ControllerUnpublishVolume 1 \"n1\"", "10 0 \"stale\"", {0}},
    {NEXT ".3 controller ControllerUnpublishVolume 5 \"n3\"", "0 0 \"\"",
     {"head 7 " NEXT, "5 live \"left\" 1 block/1 ; ; " NEXT ".3 ControllerUnpublishVolume 0 0 \"\""}},
    {0},
};
static const step OF_N2[] = {
    {"4.1 node:\"n2\" NodeStageVolume 4 block/1", "10 0 \"stale\"", {0}},
    {"1048580.0 node:\"n2\" NodeUnpublishVolume 2 \"/q\"", "0 0 \"\"", {"2 block/5 ; \"/x\" ro ; 1048580.0 NodeUnpublishVolume 0 0 \"\""}},
    {NEXT ".1 node:\"n2\" NodeUnstageVolume 4", "0 0 \"\"", {"head \"n2\" " NEXT, "4 - ; ; " NEXT ".1 NodeUnstageVolume 0 0 \"\""}},
    {0},
};

static parts changes_of(const char *first, const char *second) { return parts_of(3, (const char *[]){first, second, NULL}); }

static void a_used_set(void) {
    set of = set_of(CONTROLLER, NODES, 2);
    tested made = {0};
    parts store = parts_of(3, RECOVERED), none = {0}, changes;
    in_session_of(&of, 0, TUFAYON_DONE, S);
    in_session_of(&of, 4, TUFAYON_DONE, S);
    in_session_of(&of, 10, TUFAYON_DONE, S + 6);
    recovers(&made, &of, CONFIG, S, TUFAYON_DONE, 0, &store);
    recovers(&made, &of, CONFIG, S, TUFAYON_FULL, 0, NULL);
    raises(&made, S, TUFAYON_OTHER_KIND, NULL);
    changes = changes_of("head \"n1\" 1048580", NULL);
    raises(&of.nodes[0], S, TUFAYON_DONE, &changes);
    changes = changes_of("head \"n2\" 1048580", "gone 9");
    raises(&of.nodes[1], S, TUFAYON_DONE, &changes);
    changes = changes_of("head 7 1048580", "gone 6");
    raises(&of.controller, S, TUFAYON_DONE, &changes);
    static const uint64_t no_later[] = {S, S - 1, 4, 0};
    for (size_t at = 0; at < sizeof no_later / sizeof *no_later; at++) raises(&of.controller, no_later[at], TUFAYON_DONE, &none);
    raises(&of.nodes[1], S - 1, TUFAYON_DONE, &none);
    in_session_of(&of, 0, TUFAYON_DONE, S + (1 << 20)); /* once more, as after a stop in between */
    knows(&made, "staged \"cut\" \"n2\"", 0, TUFAYON_KNOWN_MAYBE);
    knows(&made, "attached \"left\" \"n3\"", 0, TUFAYON_KNOWN_YES);
    wants(&made, "goal \"cut\"", 0, goal_of("stop \"n2\" \"/\""));
    play_asked(&made, UNDONE);
    compares(&made, as_orchestrator(CONFIG));
    play(&of.controller, as_controller(CONFIG), OF_CONTROLLER);
    play(&of.nodes[1], as_node("n2"), OF_N2);
    frees(&made);
    free_set(&of);
}

/* Without a node: what is attached is left. */
static void without_nodes(void) {
    static const char *const ALONE[] = {"head 2 1", "1 live \"v\" 10 block/1 ; \"n1\" block/1 rw ; 1.3 ControllerPublishVolume 0 0 \"\"", NULL};
    static const char *const LEFT[] = {"nodes 1048578", "1 volume \"v\" 10 0 block/1 ; 1 yes none 0 ; \"n1\" block/1 rw yes no ,", NULL};
    set of = set_of(ALONE, NULL, 0);
    tested made = {0};
    parts store = parts_of(3, LEFT);
    in_session_of(&of, 0, TUFAYON_DONE, 1048577);
    recovers(&made, &of, "{\"greatest\":1,\"nodes\":[]}", 1048577, TUFAYON_DONE, 0, &store);
    frees(&made);
    free_set(&of);
}

/* ---- what is refused */

static void refused(const char *what, const char *config, const char *const *controller, const char *const *const *nodes, size_t count, uint64_t session,
                    uint32_t ending, uint64_t place) {
    tested made = {0};
    snprintf(doing, sizeof doing, "a recovery: %s", what);
    set of = set_of(controller, nodes, count);
    recovers(&made, &of, config, session, ending, place, NULL);
    free_set(&of);
}

static void disagree(void) {
    static const char *const UNATTACHED[] = {"head \"n1\" 4", "3 block/1 ; ; 3.9 NodeStageVolume 0 0 \"\"", NULL};
    static const char *const OTHERWISE[] = {"head \"n1\" 4", "2 block/1 ; ; 3.9 NodeStageVolume 0 0 \"\"", NULL};
    static const char *const FLAGGED[] = {"head \"n1\" 4", "1 block/1 ; \"/a\" ro ; 3.9 NodePublishVolume 0 0 \"\"", NULL};
    static const char *const UNKNOWN[] = {"head \"n1\" 4", "8 block/1 ; ; 3.9 NodeStageVolume 0 0 \"\"", NULL};
    static const char *const DELETED[] = {"head \"n1\" 4", "6 block/1 ; ; 3.9 NodeStageVolume 0 0 \"\"", NULL};
    const char *const *const all[][2] = {{N2, UNATTACHED}, {N2, OTHERWISE}, {N2, FLAGGED}, {N2, UNKNOWN}, {N2, DELETED}};
    for (size_t at = 0; at < sizeof all / sizeof *all; at++) refused("stores that disagree", CONFIG, CONTROLLER, all[at], 2, S, TUFAYON_DISAGREES, 2);
    refused("the first one disagrees", CONFIG, CONTROLLER, (const char *const *const[]){FLAGGED, N2}, 2, S, TUFAYON_DISAGREES, 1);
    refused("disagrees, and the session isn't later", CONFIG, CONTROLLER, all[0], 2, 4, TUFAYON_NOT_LATER, 0);
}

static void bad_rows(void) {
    static const char *const SHARED[] = {
        "head 4 1",
        "1 deleted \"gone\" 1 block/5 ; ; 1.9 DeleteVolume 0 0 \"\"",
        "2 live \"one\" 1 block/5 ; ; 1.1 CreateVolume 0 2 \"\"",
        "3 live \"two\" 1 block/5 ; \"n1\" block/5 rw \"n2\" block/5 rw ; 1.3 ControllerPublishVolume 0 0 \"\"",
        NULL,
    };
    static const char *const AT1[] = {"head \"n1\" 1", "3 block/5 ; ; 1.4 NodeStageVolume 0 0 \"\"", NULL};
    static const char *const AT2[] = {"head \"n2\" 1", "3 block/5 ; ; 1.5 NodeStageVolume 0 0 \"\"", NULL};
    refused("staged twice and published nowhere", CONFIG, SHARED, (const char *const *const[]){AT1, AT2}, 2, S, TUFAYON_BAD_ROW, 2);
    refused("a node that is left out", "{\"greatest\":1000,\"nodes\":[{\"id\":\"n1\",\"slots\":9}]}", CONTROLLER, NODES, 2, S, TUFAYON_BAD_ROW, 2);
    refused("all are left out", "{\"greatest\":1000,\"nodes\":[]}", CONTROLLER, NODES, 2, S, TUFAYON_BAD_ROW, 1);
}

static void refusals_of_plugins(void) {
    static const char *const EARLY[] = {"head 2 4", "1 live \"v\" 10 block/1 ; ; 1.3 CreateVolume 0 1 \"\"", NULL};
    static const char *const LATE[] = {"head \"n1\" 9", NULL};
    static const char *const LAST[] = {"head \"n1\" 18446744073708503039", NULL}; /* 2^64 - 1 - 2^20 */
    static const char *const ONE_BEFORE[] = {"head \"n1\" 18446744073708503038", NULL};
    static const char *const configs[] = {"", "{", "{\"greatest\":1000}", "{\"greatest\":0,\"nodes\":[]}", "\xff"};
    for (size_t at = 0; at < sizeof configs / sizeof *configs; at++)
        refused("a configuration", configs[at], CONTROLLER, NODES, 2, S, TUFAYON_BAD_NAME, 0);
    refused("a node twice", CONFIG, CONTROLLER, (const char *const *const[]){N2, N1, N2}, 3, S, TUFAYON_SAME_NODE, 3);
    refused("a node twice, and a session that isn't later", CONFIG, CONTROLLER, (const char *const *const[]){N1, N1}, 2, 4, TUFAYON_SAME_NODE, 2);
    refused("the controller's session", CONFIG, CONTROLLER, NODES, 2, 4, TUFAYON_NOT_LATER, 0);
    refused("no session", CONFIG, CONTROLLER, NODES, 2, 0, TUFAYON_NOT_LATER, 0);
    refused("a node's session", CONFIG, EARLY, (const char *const *const[]){LATE}, 1, 9, TUFAYON_NOT_LATER, 0);
    refused("the last session", CONFIG, CONTROLLER, NODES, 2, UINT64_MAX, TUFAYON_REFUSED, 0);
    set of = set_of(EARLY, (const char *const *const[]){LAST}, 1);
    in_session_of(&of, 0, TUFAYON_REFUSED, 0);
    free_set(&of);
    of = set_of(EARLY, (const char *const *const[]){ONE_BEFORE}, 1);
    in_session_of(&of, 0, TUFAYON_DONE, UINT64_MAX - 1);
    in_session_of(&of, UINT64_MAX, TUFAYON_REFUSED, 0);
    free_set(&of);
}

/* Handles that have nothing, or something else. */
static void other_handles(void) {
    set of = set_of(CONTROLLER, NODES, 2);
    tested made = {0}, empty = {0}, other = {0}, controller = of.controller, node = of.nodes[1];
    parts head = parts_of(3, (const char *[]){"nodes 1 \"n1\" \"n2\" \"n3\"", NULL});
    makes(&other, as_orchestrator(CONFIG), TUFAYON_DONE, &head, &head);
    const struct {
        tested *controller, *node;
        uint32_t ending;
    } cases_of[] = {
        {&empty, &node, TUFAYON_EMPTY},           {&controller, &empty, TUFAYON_EMPTY},   {&other, &node, TUFAYON_OTHER_KIND},
        {&controller, &other, TUFAYON_OTHER_KIND},
    };
    for (size_t at = 0; at < sizeof cases_of / sizeof *cases_of; at++) {
        snprintf(doing, sizeof doing, "a recovery of other handles, case %zu", at);
        of.controller = *cases_of[at].controller;
        of.nodes[1] = *cases_of[at].node;
        in_session_of(&of, 0, cases_of[at].ending, 0);
        recovers(&made, &of, CONFIG, S, cases_of[at].ending, 0, NULL);
    }
    of.controller = node; /* a node in the place of the controller */
    of.nodes[1] = controller;
    recovers(&made, &of, CONFIG, S, TUFAYON_OTHER_KIND, 0, NULL);
    of.controller = controller;
    of.nodes[1] = node;
    raises(&empty, S, TUFAYON_EMPTY, NULL);
    frees(&other);
    free_set(&of);
}

/* ---- as many as there may be */

enum { VOLUMES = 4096, MOST_NODES = 64, PRIME = 9973 };

static char *text_of(const char *form, ...) __attribute__((format(printf, 1, 2)));

static char *text_of(const char *form, ...) {
    static char text[1 << 14];
    va_list more;
    va_start(more, form);
    vsnprintf(text, sizeof text, form, more);
    va_end(more);
    return text;
}

static double milliseconds(void) {
    struct timespec now;
    timespec_get(&now, TIME_UTC);
    return (double)now.tv_sec * 1e3 + (double)now.tv_nsec / 1e6;
}

/* Each volume is published at one node, and the first at all. */
static void many(void) {
    static char config[1 << 13], holdings[1 << 12], entries[1 << 13];
    size_t at = (size_t)sprintf(config, "{\"greatest\":1000,\"nodes\":["), held_at = 0, entries_at = 0;
    for (int node = 0; node < MOST_NODES; node++) {
        at += (size_t)sprintf(config + at, "%s{\"id\":\"m%d\",\"slots\":4096}", node > 0 ? "," : "", node);
        held_at += (size_t)sprintf(holdings + held_at, "\"m%d\" block/5 rw ", node);
        entries_at += (size_t)sprintf(entries + entries_at, "\"m%d\" block/5 rw yes yes \"/a\" yes , ", node);
    }
    sprintf(config + at, "]}");
    static char heads[MOST_NODES][32];
    static const char *lines[MOST_NODES][2];
    const char *const *nodes[MOST_NODES];
    for (int node = 0; node < MOST_NODES; node++) {
        snprintf(heads[node], sizeof heads[node], "head \"m%d\" 1", node);
        lines[node][0] = heads[node];
        nodes[node] = lines[node];
    }
    parts controller = parts_of(3, (const char *[]){"head 4097 1", NULL}), given[MOST_NODES], made_of = {0}, none = {0};
    bytes ids = nodes_of(config), head = {0};
    part first = part_of("nodes 1048578", 3);
    put(&head, first.value.at, first.value.size - 1); /* without the count */
    put(&head, ids.at, ids.size);
    first.value = head;
    add(&made_of, first);
    for (int node = 0; node < MOST_NODES; node++) given[node] = parts_of(3, nodes[node]);
    for (int id = 1; id <= VOLUMES; id++) {
        int node = id % MOST_NODES;
        const char *held_here = id == 1 ? holdings : "", *known = id == 1 ? entries : "";
        char one[64] = "", entry[96] = "";
        if (id > 1) snprintf(one, sizeof one, "\"m%d\" block/5 rw ", node), snprintf(entry, sizeof entry, "\"m%d\" block/5 rw yes yes \"/a\" yes ,", node);
        add(&controller, part_of(text_of("%d live \"v%d\" 10 block/5 ; %s%s; 1.%d ControllerPublishVolume 0 0 \"\"", id, id, held_here, one, id), 3));
        add(&made_of, part_of(text_of("%d volume \"v%d\" 10 0 block/5 ; %d yes none 0 ; %s%s", id, id, id, known, entry), 3));
        for (int other = 0; other < MOST_NODES; other++) {
            if (id == 1 || other == node)
                add(&given[other], part_of(text_of("%d block/5 ; \"/a\" rw ; 1.%d NodePublishVolume 0 0 \"\"", id, 5000 + id), 3));
        }
    }
    set of = {.nodes = grow(NULL, (MOST_NODES + 1) * sizeof(tested)), .count = MOST_NODES};
    memset(of.nodes, 0, (MOST_NODES + 1) * sizeof(tested));
    stride = 0;
    makes(&of.controller, of_record(as_controller(config), record_of(&controller, 3)), TUFAYON_DONE, &controller, &none);
    for (int node = 0; node < MOST_NODES; node++) {
        char id[16];
        snprintf(id, sizeof id, "m%d", node);
        makes(&of.nodes[node], of_record(as_node(id), record_of(&given[node], 3)), TUFAYON_DONE, &given[node], &none);
    }
    tested made = {0};
    uint64_t session = 0, place = 0;
    tufayon_plugin *row = row_of(&of);
    double began = milliseconds();
    must(tufayon_recovery_session(0, &of.controller.plugin, row, of.count, &session) == TUFAYON_DONE && session == 1048577, "the session of many");
    must(tufayon_orchestrator_recovered((const uint8_t *)config, strlen(config), session, &of.controller.plugin, row, of.count, &made.plugin, &place) == 0,
         "many aren't recovered");
    double took = milliseconds() - began;
    put_back(&of);
    was_made(&made, &made_of, &made_of);
    frees(&made);
    printf("the library, recovery: of %d volumes at %d nodes in %.1f ms\n", VOLUMES, MOST_NODES, took);
    stride = PRIME;
    snprintf(doing, sizeof doing, "a recovery of many volumes");
    recovers(&made, &of, config, session, TUFAYON_DONE, 0, &made_of);
    stride = 0;
    frees(&made);
    free_set(&of);
    stride = 1;
}

void test_recovering(void) {
    a_used_set();
    without_nodes();
    disagree();
    bad_rows();
    refusals_of_plugins();
    other_handles();
    many();
}
