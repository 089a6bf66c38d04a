/* Calls of the library, and what is expected of them. */
#include "calls.h"

unsigned long stride = 1;
unsigned long cases, refusals;

enum { GUARD = 16 }; /* bytes behind a room, to which no call writes */

static size_t open; /* handles that have a plugin */

/* Which call of the header it is: a row of the table in endings.c. */
static size_t row_of(const call *it) {
    if (it->what == MAKE && it->how.kind == AS_ORCHESTRATOR && it->how.joined) return ROW_OPENED;
    if (it->what == MAKE && it->how.kind == AS_ORCHESTRATOR) return ROW_ORCHESTRATORS + (size_t)it->how.from_record;
    if (it->what == MAKE && it->how.joined) return ROW_JOINED + (size_t)it->how.from_record;
    if (it->what == MAKE) return 2 * (size_t)it->how.from_record + (size_t)it->how.kind;
    if (it->what == ASK) return ROW_REQUESTS + (size_t)it->asks.kind;
    return it->what == VOLUME ? ROW_VOLUME : ROW_ANSWER + (size_t)(it->what - ANSWER);
}

static const uint8_t *bytes_of(const bytes *it) {
    static const uint8_t none[1];
    return it->size > 0 ? it->at : none; /* no pointer is null */
}

static uint32_t make(tufayon_plugin *plugin, const asked *how) {
    const uint8_t *name = bytes_of(&how->name), *record = bytes_of(&how->record);
    size_t size = how->name.size, record_size = how->record.size;
    if (how->joined && how->kind == AS_ORCHESTRATOR) return tufayon_orchestrator_open(name, size, record, record_size, how->session, plugin);
    if (how->joined) {
        return how->from_record ? tufayon_node_joined_from_record(name, size, how->session, record, record_size, plugin)
                                : tufayon_node_joined(name, size, how->session, plugin);
    }
    static uint32_t (*const news[])(const uint8_t *, size_t, tufayon_plugin *) = {tufayon_controller_new, tufayon_node_new, tufayon_orchestrator_new};
    static uint32_t (*const reads[])(const uint8_t *, size_t, const uint8_t *, size_t, tufayon_plugin *) = {
        tufayon_controller_from_record, tufayon_node_from_record, tufayon_orchestrator_from_record};
    return how->from_record ? reads[how->kind](name, size, record, record_size, plugin) : news[how->kind](name, size, plugin);
}

/* A text or capabilities, as two arguments. */
#define GIVEN(it) bytes_of(&ask->it), ask->it.size

static uint32_t request_it(call *it) {
    const request *ask = &it->asks;
    tufayon_plugin *of = &it->of->plugin;
    uint8_t *to = it->to;
    size_t room = it->room, *written = &it->written;
    uint32_t *number = &it->number;
    switch (ask->kind) {
    case ASK_CREATE: return tufayon_create(of, GIVEN(name), ask->required, ask->limit, GIVEN(capabilities), to, room, written, number);
    case ASK_USE: return tufayon_use(of, GIVEN(name), GIVEN(node), GIVEN(target), GIVEN(capabilities), ask->readonly, to, room, written, number);
    case ASK_STOP: return tufayon_stop(of, GIVEN(name), GIVEN(node), GIVEN(target), to, room, written, number);
    case ASK_DELETE: return tufayon_delete(of, GIVEN(name), to, room, written, number);
    case ASK_TIMEOUT: return tufayon_timeout(of, GIVEN(name), to, room, written, number);
    case ASK_DELIVER: return tufayon_deliver(of, GIVEN(came), &it->used, to, room, written, number);
    case ASK_LOSE: return tufayon_orchestrator_lose(of, GIVEN(node), number);
    case ASK_EXISTS: return tufayon_exists(of, GIVEN(name), number);
    case ASK_ATTACHED: return tufayon_attached(of, GIVEN(name), GIVEN(node), number);
    case ASK_STAGED: return tufayon_staged(of, GIVEN(name), GIVEN(node), number);
    case ASK_PUBLISHED: return tufayon_published(of, GIVEN(name), GIVEN(node), GIVEN(target), number);
    default: return tufayon_goal(of, GIVEN(name), to, room, written);
    }
}

static uint32_t call_it(call *it) {
    tufayon_plugin *plugin = &it->of->plugin;
    if (it->what == MAKE) return make(plugin, &it->how);
    if (it->what == ANSWER) return tufayon_answer(plugin, bytes_of(&it->given), it->given.size, &it->used, it->to, it->room, &it->written);
    if (it->what == CHANGED) return tufayon_changed(plugin, it->place, &it->key, it->to, it->room, &it->written);
    if (it->what == ASK) return request_it(it);
    if (it->what == VOLUME) return tufayon_volume(plugin, it->place, it->to, it->room, &it->written);
    return tufayon_record(plugin, it->to, it->room, &it->written);
}

/* ---- what a call says beside its number, which it writes only with the numbers of which the header says so */

#define AMONG(ending, set) ((((set) >> (ending)) & 1) != 0)
enum {
    IN_FULL = 1 << TUFAYON_DONE | 1 << TUFAYON_MET | 1 << TUFAYON_IGNORED,
    ONE_CHANGE = 1 << TUFAYON_DONE | 1 << TUFAYON_TAKE_OUT | 1 << TUFAYON_NO_ROOM,
    HEARD = 1 << TUFAYON_DONE | 1 << TUFAYON_IGNORED | 1 << TUFAYON_REFUSED | 1 << TUFAYON_OLDER_STORE |
            1 << TUFAYON_NO_MEMORY /* with the last one it says nothing */
};

static bool is_command(const call *it) { return it->what == ASK && it->asks.kind <= ASK_DELIVER; }
static bool is_goal(const call *it) { return it->what == ASK && it->asks.kind == ASK_GOAL; }

static bool says_used(const call *it, uint32_t ending) {
    if (it->what == ASK && it->asks.kind == ASK_DELIVER) return AMONG(ending, HEARD);
    return it->what == ANSWER && ending == TUFAYON_DONE;
}

static bool says_written(const call *it, uint32_t ending) {
    if (is_command(it)) return AMONG(ending, IN_FULL);
    if (it->what == CHANGED) return AMONG(ending, ONE_CHANGE);
    if (it->what == RECORD || it->what == VOLUME || is_goal(it)) return ending == TUFAYON_DONE || ending == TUFAYON_NO_ROOM;
    return it->what == ANSWER && ending == TUFAYON_DONE;
}

static bool says_number(const call *it, uint32_t ending) {
    if (it->what != ASK || is_goal(it)) return false;
    return ending == (it->asks.kind <= ASK_LOSE ? TUFAYON_REFUSED : TUFAYON_DONE);
}

/* Where in the room nothing may be written from. */
static size_t written_up_to(const call *it, uint32_t ending) { return ending == TUFAYON_DONE && it->written <= it->room ? it->written : 0; }

static const uint64_t NO_KEY = 0xa5a5a5a5a5a5a5a5; /* no test has a part under it */

static void says_nothing_else(const call *it, uint32_t ending) {
    must(says_used(it, ending) || it->used == SIZE_MAX, "it says how many bytes it took, and the header says nothing of that");
    must(says_written(it, ending) || it->written == SIZE_MAX, "it says how many bytes it wrote, and the header says nothing of that");
    must(says_number(it, ending) || it->number == UINT32_MAX, "it says a refusal, or what is known, and the header says nothing of that");
    must((it->what == CHANGED && AMONG(ending, ONE_CHANGE)) || it->key == NO_KEY, "it says a key, and the header says nothing of that");
    must(ending == TUFAYON_DONE || !says_written(it, ending) || ending == TUFAYON_NO_ROOM || it->written == 0, "it wrote something, and there is nothing");
    const uint8_t *rest = it->to + written_up_to(it, ending), *end = it->to + it->room + GUARD;
    must(*rest == 0xa5 && memcmp(rest, rest + 1, (size_t)(end - rest) - 1) == 0, "it wrote where nothing is to be written");
}

/* Makes the call, in whose room nothing was written before, and sees that it writes nothing but what the header says. */
uint32_t attempt(call *it) {
    it->to = grow(NULL, it->room + GUARD);
    memset(it->to, 0xa5, it->room + GUARD);
    it->used = it->written = SIZE_MAX;
    it->number = UINT32_MAX;
    it->key = NO_KEY;
    uint32_t ending = call_it(it);
    says_nothing_else(it, ending);
    cases++;
    see(row_of(it), ending);
    return ending;
}

void leave(call *it) {
    give_back(it->to);
    it->to = NULL;
}

/* The ending of a call, of which nothing else is looked at. */
uint32_t ending_of(call it) {
    uint32_t ending = attempt(&it);
    leave(&it);
    return ending;
}

/* ---- what a plugin has */

/* The change that was told is expected. Of two under one key the later one, which is seen first, is what comes of both. */
static void find(const tested *of, bool *seen, const call *it, uint32_t ending) {
    for (size_t at = 0; at < of->told.count; at++) {
        const part *wanted = &of->told.at[at];
        if (wanted->key != it->key) continue;
        must(seen[at] || wanted->gone == (ending == TUFAYON_TAKE_OUT), "a change is put in that is taken out, or the other way round");
        must(seen[at] || wanted->gone || same(wanted->value, (bytes){.at = it->to, .size = it->written}), "a change has another value");
        seen[at] = true;
        return;
    }
    must(false, "a change is told that isn't expected");
}

/* How many changes are told; there is none at a later place. */
static size_t count_told(tested *of) {
    size_t count = 0;
    uint32_t ending;
    while ((ending = ending_of((call){.what = CHANGED, .of = of, .place = count})) != TUFAYON_NO_MORE) {
        must(ending == TUFAYON_NO_ROOM || ending == TUFAYON_TAKE_OUT, "a change isn't told");
        count++;
    }
    must(ending_of((call){.what = CHANGED, .of = of, .place = SIZE_MAX}) == TUFAYON_NO_MORE, "there is a change at the greatest place");
    return count;
}

/* A change is told only where there is room for all its value. */
static void wants_room(tested *of, size_t place, size_t size) {
    for (size_t room = 0; room < size; room += size > 8 ? size / 2 : 1) {
        call it = {.what = CHANGED, .of = of, .place = place, .room = room};
        must(attempt(&it) == TUFAYON_NO_ROOM && it.written == size, "a change has too little room, and it isn't said how much it wants");
        leave(&it);
    }
    must(ending_of((call){.what = CHANGED, .of = of, .place = place, .room = size - 1}) == TUFAYON_NO_ROOM, "a change has a byte too little");
}

/* Bytes of the largest value that is expected to be told. */
static size_t largest(const tested *of) {
    size_t room = 1;
    for (size_t at = 0; at < of->told.count; at++) room = room > of->told.at[at].value.size ? room : of->told.at[at].value.size;
    return room;
}

/* The changes that it tells come, in order, to those that are expected. They are asked for from the last one, so that the order of asking says
 * nothing. */
void tells(tested *of, bool in_full) {
    bool *seen = grow(NULL, of->told.count + 1);
    memset(seen, 0, of->told.count + 1);
    size_t room = largest(of);
    for (size_t place = count_told(of); place-- > 0;) {
        call it = {.what = CHANGED, .of = of, .place = place, .room = room};
        uint32_t ending = attempt(&it);
        must(ending == TUFAYON_DONE || ending == TUFAYON_TAKE_OUT, "a change doesn't fit");
        find(of, seen, &it, ending);
        if (in_full && ending == TUFAYON_DONE) wants_room(of, place, it.written);
        must(ending == TUFAYON_DONE || ending_of((call){.what = CHANGED, .of = of, .place = place}) == ending, "what is taken out wants room");
        leave(&it);
    }
    for (size_t at = 0; at < of->told.count; at++) must(seen[at], "a change isn't told");
    give_back(seen);
}

/* Its record, in a room that is as large. */
static void has_record(tested *of, uint32_t ending, const call *it) {
    must(ending == TUFAYON_DONE && same(of->record, (bytes){.at = it->to, .size = it->written}), "the record is another one");
}

/* All is as it was. */
void is_as_it_was(tested *of) {
    if (!of->has) {
        must(ending_of((call){.what = RECORD, .of = of, .room = 64}) == TUFAYON_EMPTY, "a handle without a plugin has a record");
        must(ending_of((call){.what = CHANGED, .of = of, .room = 64}) == TUFAYON_EMPTY, "a handle without a plugin has changes");
        return;
    }
    call it = {.what = RECORD, .of = of, .room = of->record.size};
    has_record(of, attempt(&it), &it);
    leave(&it);
    tells(of, false);
}

/* Makes a call again and again, each time with another allocation refused, until none is. Each refusal leaves all as it was. */
uint32_t each_refused(call *it) {
    for (unsigned long at = 1;; at += stride) {
        long before = held;
        refuse(stride > 0 ? at : 0);
        uint32_t ending = attempt(it);
        bool was = was_refused;
        refuse(0);
        refusals += was;
        if (!was || ending != TUFAYON_NO_MEMORY) return ending;
        must(it->what != MAKE || held == before, "a refused allocation leaves a block");
        leave(it);
        is_as_it_was(it->of);
    }
}

static void has_changes(tested *of) {
    size_t room = largest(of);
    for (size_t place = 0; stride > 0 && place <= of->told.count; place++) {
        call it = {.what = CHANGED, .of = of, .place = place, .room = room};
        must(each_refused(&it) != TUFAYON_NO_MEMORY, "a change wants memory where none is refused");
        leave(&it);
    }
    tells(of, true);
}

void compare(tested *of) {
    of->record = record_of(&of->store, 3);
    has_changes(of);
    for (size_t less = 1; less <= of->record.size; less += 1 + 2 * less) {
        call it = {.what = RECORD, .of = of, .room = of->record.size - less};
        must(attempt(&it) == TUFAYON_NO_ROOM && it.written == of->record.size, "a record has too little room, and it isn't said how much it wants");
        leave(&it);
    }
    call it = {.what = RECORD, .of = of, .room = of->record.size};
    has_record(of, each_refused(&it), &it);
    leave(&it);
}

void compares(tested *of, asked how) {
    tested again = {0};
    compare(of);
    if (how.kind == AS_ORCHESTRATOR) {
        parts next = next_session(&of->store, how.nodes), told = told_at(&of->store, &next);
        makes(&again, of_record(how, of->record), TUFAYON_DONE, &next, &told);
    } else {
        makes(&again, of_record(how, of->record), TUFAYON_DONE, &of->store, &(parts){0});
    }
    frees(&again);
}

/* ---- calls */

static asked asked_for(enum asked_kind kind, const char *name) {
    asked it = {.kind = kind};
    put(&it.name, name, strlen(name));
    return it;
}

asked as_controller(const char *config) { return asked_for(AS_CONTROLLER, config); }
asked as_node(const char *id) { return asked_for(AS_NODE, id); }

asked as_orchestrator(const char *config) {
    asked it = asked_for(AS_ORCHESTRATOR, config);
    it.nodes = nodes_of(config);
    return it;
}

asked in_session(asked it, uint64_t session) {
    it.joined = true;
    it.session = session;
    return it;
}

asked joined_node(const char *id, uint64_t session) { return in_session(as_node(id), session); }

asked of_record(asked it, bytes record) {
    it.record = record;
    it.from_record = true;
    return it;
}

parts copy_of(const parts *from) {
    parts it = {0};
    for (size_t at = 0; at < from->count; at++) add(&it, from->at[at]);
    return it;
}

void was_made(tested *of, const parts *store, const parts *told) {
    of->has = true;
    of->store = copy_of(store);
    of->told = copy_of(told);
    open++;
    compare(of);
}

void makes(tested *of, asked how, uint32_t ending, const parts *store, const parts *told) {
    call it = {.what = MAKE, .of = of, .how = how};
    long before = held;
    uint32_t got = each_refused(&it);
    leave(&it);
    must(got == ending, "a plugin is made, or isn't, against what is expected");
    if (ending == TUFAYON_DONE || ending == TUFAYON_RENEWED) {
        was_made(of, store, told);
    } else {
        must(held == before, "a plugin that isn't made leaves a block");
        if (!of->has || stride > 0) is_as_it_was(of);
    }
}

/* A frame of which the end isn't there is the beginning of one. */
static void is_cut(tested *of, bytes frame) {
    for (size_t size = 0; size < frame.size; size++) {
        call it = {.what = ANSWER, .of = of, .given = {.at = frame.at, .size = size}, .room = TUFAYON_REPLY_ROOM};
        must(each_refused(&it) == TUFAYON_SHORT, "the beginning of a frame is answered");
        leave(&it);
    }
    is_as_it_was(of);
}

static void is_given_too_little_room(tested *of, bytes frame) {
    static const size_t rooms[] = {0, 32, TUFAYON_REPLY_ROOM - 1};
    for (size_t at = 0; at < 3; at++)
        must(ending_of((call){.what = ANSWER, .of = of, .given = frame, .room = rooms[at]}) == TUFAYON_NO_ROOM, "a reply has too little room");
    is_as_it_was(of);
}

void answers(tested *of, bytes frame, bytes reply, const parts *changes) {
    call it = {.what = ANSWER, .of = of, .room = TUFAYON_REPLY_ROOM};
    static unsigned turn;
    if (stride == 1) is_cut(of, frame), is_given_too_little_room(of, frame);
    put(&it.given, frame.at, frame.size);
    for (size_t more = 0; turn % 2 == 1 && more < 3 * TUFAYON_FRAME_ROOM; more++) put_number(&it.given, turn / 2 % 256, 1);
    turn++;
    must(each_refused(&it) == TUFAYON_DONE, "a frame isn't answered");
    must(it.used == frame.size, "it takes other bytes than the frame's");
    must(same(reply, (bytes){.at = it.to, .size = it.written}), "a frame has another reply");
    leave(&it);
    give_back(it.given.at);
    of->told = copy_of(changes);
    for (size_t at = 0; at < changes->count; at++) change(&of->store, changes->at[at]);
    if (stride == 1) compare(of);
    else tells(of, false);
}

void refuses(tested *of, bytes frame, uint32_t ending) {
    call it = {.what = ANSWER, .of = of, .given = frame, .room = TUFAYON_REPLY_ROOM};
    must(each_refused(&it) == ending, "bytes have another ending");
    leave(&it);
    is_as_it_was(of);
}

void frees(tested *of) {
    tufayon_free(&of->plugin);
    open -= of->has;
    of->has = false;
    is_as_it_was(of);
    must(ending_of((call){.what = ANSWER, .of = of, .given = frame_of("1.1 controller DeleteVolume 1"), .room = TUFAYON_REPLY_ROOM}) == TUFAYON_EMPTY,
         "a handle without a plugin answers");
    must(open > 0 || held == 0, "plugins that were freed leave blocks");
}
