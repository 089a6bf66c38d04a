/* What becomes of an orchestrator's store where a session begins: docs/RECORDS.md, "Records". */
#include "library.h"

bytes nodes_of(const char *config) {
    static const char KEY[] = "\"id\":\"";
    bytes ids = {0}, nodes = {0};
    uint64_t count = 0;
    for (const char *at = config; (at = strstr(at, KEY)) != NULL; count++) {
        size_t size = strcspn(at += strlen(KEY), "\"");
        put_number(&ids, size, 1);
        put(&ids, at, size);
    }
    put_number(&nodes, count, 1);
    put(&nodes, ids.at, ids.size);
    return nodes;
}

/* Behind the text, or the capability, that begins there. */
static size_t behind_text(bytes row, size_t at) { return at + 1 + row.at[at]; }
static size_t behind_capability(bytes row, size_t at) { return (row.at[at] == 0 ? at + 1 : behind_text(row, at + 1)) + 1; }

/* Its volume isn't there, and nothing is wanted of it. */
static bool is_forgotten(bytes row) {
    size_t at = behind_text(row, 1) + 16; /* a byte with the version; two numbers behind the name */
    unsigned count = row.at[at++];
    while (count-- > 0) at = behind_capability(row, at);
    at += row.at[at] == 0 ? 1 : 9; /* the id */
    return row.at[at] == 0 && row.at[at + 1] == 0;
}

static part head_of(bytes before, bytes nodes) {
    part it = {0};
    put(&it.value, before.at, 10); /* two bytes, and the session */
    for (size_t at = 9; ++it.value.at[at] == 0; at--) {}
    put(&it.value, nodes.at, nodes.size);
    return it;
}

parts next_session(const parts *store, bytes nodes) {
    parts next = {0};
    add(&next, head_of(store->at[0].value, nodes));
    for (size_t at = 1; at < store->count; at++) {
        part row = store->at[at];
        if (is_forgotten(row.value)) continue;
        row.key = next.count;
        add(&next, row);
    }
    return next;
}

parts whole_of(const parts *before, const parts *after) {
    parts told = {0};
    for (size_t at = 0; at < after->count; at++) add(&told, after->at[at]);
    for (size_t at = after->count; at < before->count; at++) add(&told, (part){.key = at, .gone = true});
    return told;
}

parts told_at(const parts *before, const parts *after) {
    parts head = {0};
    if (after->count < before->count) return whole_of(before, after);
    add(&head, after->at[0]);
    return head;
}
