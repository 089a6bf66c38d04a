/* Frames and parts, spelled as docs/FORMATS.md says, from lines that a reader can check. */
#include "library.h"

static const char *const KINDS[] = {"", "CreateVolume", "DeleteVolume", "ControllerPublishVolume", "ControllerUnpublishVolume", "NodeStageVolume",
                                    "NodeUnstageVolume", "NodePublishVolume", "NodeUnpublishVolume"};

static const char *at; /* what is left of the line that is read */

void put(bytes *to, const void *from, size_t size) {
    if (to->room < to->size + size) to->at = grow(to->at, to->room = 2 * (to->size + size));
    if (size > 0) memcpy(to->at + to->size, from, size);
    to->size += size;
}

void put_number(bytes *to, uint64_t number, int size) {
    for (; size > 0; size--) {
        uint8_t byte = (uint8_t)(number >> 8 * (size - 1));
        put(to, &byte, 1);
    }
}

bool same(bytes a, bytes b) { return a.size == b.size && (a.size == 0 || memcmp(a.at, b.at, a.size) == 0); }

/* ---- words of a line */

static void skip(void) {
    while (*at == ' ') at++;
}

/* Whether the line goes on with this, which is then passed. */
static bool passes(const char *word) {
    skip();
    size_t size = strlen(word);
    if (strncmp(at, word, size) != 0) return false;
    at += size;
    return true;
}

static void pass(const char *word) { must(passes(word), "a line of the test is wrong"); }

static uint64_t number(void) {
    char *end;
    skip();
    uint64_t it = strtoull(at, &end, 10);
    must(end != at, "a line of the test has no number");
    at = end;
    return it;
}

/* The bytes of a text. */
static void raw_text(bytes *to) {
    bytes it = {0};
    for (pass("\""); *at != '"'; at++) {
        must(*at != 0, "a text of the test has no end");
        unsigned byte = (uint8_t)*at;
        if (strncmp(at, "\\x", 2) == 0) {
            must(sscanf(at + 2, "%2x", &byte) == 1, "a text of the test is wrong");
            at += 3;
        }
        put_number(&it, byte, 1);
    }
    at++;
    size_t times = *at == '*' ? (at++, (size_t)number()) : 1;
    while (times-- > 0) put(to, it.at, it.size);
}

/* A text: its length and its bytes. */
static void text(bytes *to) {
    bytes it = {0};
    raw_text(&it);
    put_number(to, it.size, 1);
    put(to, it.at, it.size);
}

/* A capability; its mode. */
static int capability(bytes *to) {
    if (passes("block")) {
        put_number(to, 0, 1);
    } else {
        pass("mount:");
        put_number(to, 1, 1);
        text(to);
    }
    pass("/");
    uint64_t mode = number();
    put_number(to, mode, 1);
    return (int)mode;
}

static void flag(bytes *to) { put_number(to, passes("ro") ? 1 : (pass("rw"), 0), 1); }

static bool is_at_end(void) {
    skip();
    return *at == 0 || *at == ';';
}

static int kind(void) {
    skip();
    for (int it = 1; it <= 8; it++) {
        size_t size = strlen(KINDS[it]);
        if (strncmp(at, KINDS[it], size) == 0 && (at[size] == ' ' || at[size] == 0)) return at += size, it;
    }
    must(false, "a line of the test has no kind");
    return 0;
}

static void reply(bytes *to) {
    put_number(to, number(), 1);
    put_number(to, number(), 8);
    text(to);
}

/* ---- frames */

/* The fields of a call; whether they need version 2. */
static bool fields(bytes *to, int kind) {
    bytes capabilities = {0};
    int count = 0;
    bool is_new = false;
    if (kind == 1) {
        text(to);
        put_number(to, number(), 8);
        put_number(to, number(), 8);
        for (; !is_at_end(); count++) is_new |= capability(&capabilities) > 5;
        put_number(to, (uint64_t)count, 1);
        put(to, capabilities.at, capabilities.size);
        return is_new;
    }
    put_number(to, number(), 8);
    if (kind == 3 || kind == 4 || kind == 7 || kind == 8) text(to);
    if (kind == 3 || kind == 5 || kind == 7) is_new = capability(to) > 5;
    if (kind == 3 || kind == 7) flag(to);
    return is_new;
}

bytes frame_of(const char *line) {
    bytes head = {0}, party = {0}, body = {0}, frame = {0};
    at = line;
    put_number(&head, number(), 8);
    pass(".");
    put_number(&head, number(), 8);
    if (passes("controller")) put_number(&party, 0, 1);
    else pass("node:"), put_number(&party, 1, 1), text(&party);
    int of = kind();
    bool is_reply = passes("reply"), is_new = false;
    if (is_reply) reply(&body);
    else is_new = fields(&body, of);
    must(is_at_end(), "a line of the test goes on");
    put_number(&frame, 2 + head.size + party.size + body.size, 4);
    put_number(&frame, is_new ? 2 : 1, 1);
    put_number(&frame, (uint64_t)(is_reply ? of + 128 : of), 1);
    put(&frame, head.at, head.size);
    put(&frame, party.at, party.size);
    put(&frame, body.at, body.size);
    return frame;
}

/* ---- parts */

/* So many things up to the next semicolon, behind a byte with their count. */
static void list(bytes *to, void (*one)(bytes *)) {
    bytes all = {0};
    uint64_t count = 0;
    for (; !is_at_end(); count++) one(&all);
    put_number(to, count, 1);
    put(to, all.at, all.size);
    pass(";");
}

static void one_capability(bytes *to) { capability(to); }
static void one_holding(bytes *to) { text(to), capability(to), flag(to); }
static void one_target(bytes *to) { text(to), flag(to); }

/* ---- parts of an orchestrator */

static void known(bytes *to) { put_number(to, passes("no") ? 0 : passes("yes") ? 1 : (pass("maybe"), 2), 1); }

static void goal(bytes *to) {
    if (passes("none")) put_number(to, 0, 1);
    else if (passes("create")) put_number(to, 1, 1);
    else if (passes("use")) put_number(to, 2, 1), text(to), text(to), capability(to), flag(to);
    else if (passes("stop")) put_number(to, 3, 1), text(to), text(to);
    else pass("delete"), put_number(to, 4, 1);
}

/* A node's entry, up to a comma. */
static void one_entry(bytes *to) {
    bytes targets = {0};
    uint64_t count = 0;
    text(to), capability(to), flag(to), known(to), known(to);
    for (; !passes(","); count++) text(&targets), known(&targets);
    put_number(to, count, 1);
    put(to, targets.at, targets.size);
}

static void nodes(bytes *to) {
    bytes all = {0};
    uint64_t count = 0;
    put_number(to, 2, 1);
    put_number(to, number(), 8);
    for (; !is_at_end(); count++) text(&all);
    put_number(to, count, 1);
    put(to, all.at, all.size);
}

static void volume(bytes *to) {
    bytes entries = {0};
    uint64_t count = 0;
    text(to);
    put_number(to, number(), 8);
    put_number(to, number(), 8);
    list(to, one_capability);
    if (passes("-")) put_number(to, 0, 1);
    else put_number(to, 1, 1), put_number(to, number(), 8);
    known(to);
    goal(to);
    put_number(to, number(), 1);
    pass(";");
    for (; !is_at_end(); count++) one_entry(&entries);
    put_number(to, count, 1);
    put(to, entries.at, entries.size);
}

/* ---- parts of a plugin */

static void kept_call(bytes *to) {
    put_number(to, number(), 8);
    pass(".");
    put_number(to, number(), 8);
    put_number(to, (uint64_t)kind() + 128, 1);
    reply(to);
}

static void head(bytes *to, int version) {
    skip();
    if (*at == '"') put_number(to, 1, 1), text(to);
    else put_number(to, 0, 1), put_number(to, number(), 8);
    uint64_t session = number();
    if (version == 3) put_number(to, session, 8);
}

static void row(bytes *to) {
    bool is_live = passes("live");
    if (is_live || passes("deleted")) {
        put_number(to, is_live ? 1 : 2, 1);
        text(to);
        put_number(to, number(), 8);
        list(to, one_capability);
        list(to, one_holding);
    } else {
        if (passes("-")) put_number(to, 0, 1);
        else put_number(to, 1, 1), capability(to);
        pass(";");
        list(to, one_target);
    }
    kept_call(to);
}

part part_of(const char *line, int version) {
    part it = {0};
    at = line;
    if (passes("gone")) {
        it.key = number();
        it.gone = true;
        return it;
    }
    put_number(&it.value, (uint64_t)version, 1);
    if (passes("head")) head(&it.value, version);
    else if (passes("nodes")) nodes(&it.value);
    else it.key = number(), passes("volume") ? volume(&it.value) : row(&it.value);
    must(is_at_end(), "a line of the test goes on");
    return it;
}

void add(parts *to, part it) {
    if (to->room < to->count + 1) to->at = grow(to->at, (to->room = 2 * (to->count + 1)) * sizeof it);
    to->at[to->count++] = it;
}

parts parts_of(int version, const char *const *lines) {
    parts all = {0};
    for (; *lines != NULL; lines++) add(&all, part_of(*lines, version));
    return all;
}

bytes goal_of(const char *line) {
    bytes it = {0};
    at = line;
    goal(&it);
    must(is_at_end(), "a line of the test goes on");
    return it;
}

/* ---- requests */

request request_of(const char *line) {
    static const char *const REQUESTS[] = {"create", "use", "stop", "delete", "timeout", "deliver", "lose", "exists", "attached", "staged", "published", "goal"};
    request it = {0};
    bytes byte = {0};
    int kind = 0;
    at = line;
    while (kind <= ASK_GOAL && !passes(REQUESTS[kind])) kind++;
    must(kind <= ASK_GOAL, "a line of the test is no request");
    it.kind = (enum request_kind)kind;
    if (kind == ASK_DELIVER) return it.came = frame_of(at), it;
    if (kind == ASK_LOSE) return raw_text(&it.node), it;
    raw_text(&it.name);
    if (kind == ASK_CREATE) {
        it.required = number();
        it.limit = number();
        while (!is_at_end()) capability(&it.capabilities);
    }
    if (kind == ASK_USE || kind == ASK_STOP || kind == ASK_ATTACHED || kind == ASK_STAGED || kind == ASK_PUBLISHED) raw_text(&it.node);
    if (kind == ASK_USE || kind == ASK_STOP || kind == ASK_PUBLISHED) raw_text(&it.target);
    if (kind == ASK_USE) {
        capability(&it.capabilities);
        flag(&byte);
        it.readonly = byte.at[0] == 1;
    }
    must(is_at_end(), "a line of the test goes on");
    return it;
}
