/* Calls of an orchestrator, and what is expected of them. */
#include "calls.h"

/* The beginning of a frame is none that came; and a frame to be sent has too little room. */
static void is_asked_in_vain(tested *of, request ask) {
    static const size_t rooms[] = {0, 32, TUFAYON_FRAME_ROOM - 1};
    for (size_t size = 0; ask.kind == ASK_DELIVER && size < ask.came.size; size++) {
        call it = {.what = ASK, .of = of, .asks = ask, .room = TUFAYON_FRAME_ROOM};
        it.asks.came.size = size;
        must(attempt(&it) == TUFAYON_SHORT, "the beginning of a frame came");
        leave(&it);
    }
    for (size_t at = 0; at < 3; at++)
        must(ending_of((call){.what = ASK, .of = of, .asks = ask, .room = rooms[at]}) == TUFAYON_NO_ROOM, "a frame to be sent has too little room");
    is_as_it_was(of);
}

void asks(tested *of, const char *line, uint32_t ending, bytes frame, uint32_t fault, const parts *changes) {
    call it = {.what = ASK, .of = of, .asks = request_of(line), .room = TUFAYON_FRAME_ROOM};
    bool is_done = ending == TUFAYON_DONE || ending == TUFAYON_MET || ending == TUFAYON_IGNORED;
    size_t size = it.asks.came.size;
    snprintf(doing, sizeof doing, "%.4000s", line);
    if (of->has && stride == 1 && (is_done || ending == TUFAYON_REFUSED)) is_asked_in_vain(of, it.asks);
    for (size_t more = 0; it.asks.kind == ASK_DELIVER && is_done && more < 2 * TUFAYON_FRAME_ROOM; more++) put_number(&it.asks.came, more % 256, 1);
    must(each_refused(&it) == ending, "a request has another ending");
    must(ending != TUFAYON_REFUSED || it.number == fault, "a refusal has another number");
    must(ending == TUFAYON_REFUSED || it.number == UINT32_MAX, "a refusal's number is told where nothing is refused");
    must(!is_done || same(frame, (bytes){.at = it.to, .size = it.written}), "another frame is to be sent");
    must(it.asks.kind != ASK_DELIVER || !is_done || it.used == size, "a frame that came took other bytes");
    leave(&it);
    if (is_done) {
        of->told = copy_of(changes);
        for (size_t at = 0; at < changes->count; at++) change(&of->store, changes->at[at]);
        if (stride == 1) compare(of);
        else tells(of, false);
    } else if (stride == 1) {
        is_as_it_was(of);
    }
}

void loses(tested *of, const char *line, uint32_t ending, uint32_t fault, const parts *after) {
    call it = {.what = ASK, .of = of, .asks = request_of(line)};
    snprintf(doing, sizeof doing, "%.4000s", line);
    must(each_refused(&it) == ending, "a loss has another ending");
    must(it.number == (ending == TUFAYON_REFUSED ? fault : UINT32_MAX), "a refused loss has another number, or one that isn't refused has one");
    leave(&it);
    if (ending != TUFAYON_DONE) return is_as_it_was(of);
    of->told = whole_of(&of->store, after);
    of->store = copy_of(after);
    compare(of);
}

void knows(tested *of, const char *line, uint32_t ending, uint32_t known) {
    call it = {.what = ASK, .of = of, .asks = request_of(line)};
    snprintf(doing, sizeof doing, "%.4000s", line);
    must(each_refused(&it) == ending, "what is known has another ending");
    must(it.number == (ending == TUFAYON_DONE ? known : UINT32_MAX), "something else is known");
    leave(&it);
    is_as_it_was(of);
}

void wants(tested *of, const char *line, uint32_t ending, bytes goal) {
    call it = {.what = ASK, .of = of, .asks = request_of(line), .room = TUFAYON_GOAL_ROOM};
    snprintf(doing, sizeof doing, "%.4000s", line);
    must(each_refused(&it) == ending, "what is wanted has another ending");
    must(ending != TUFAYON_DONE || same(goal, (bytes){.at = it.to, .size = it.written}), "something else is wanted");
    leave(&it);
    for (size_t room = 0; ending == TUFAYON_DONE && room < goal.size; room++) {
        it.room = room;
        must(attempt(&it) == TUFAYON_NO_ROOM && it.written == goal.size, "what is wanted has too little room, and it isn't said how much it wants");
        leave(&it);
    }
    is_as_it_was(of);
}

void names(tested *of, size_t place, uint32_t ending, bytes name) {
    call it = {.what = VOLUME, .of = of, .place = place, .room = TUFAYON_NAME_ROOM};
    must(each_refused(&it) == ending, "the volume at a place has another ending");
    must(ending != TUFAYON_DONE || same(name, (bytes){.at = it.to, .size = it.written}), "the volume at a place has another name");
    leave(&it);
    for (size_t room = 0; ending == TUFAYON_DONE && room < name.size; room++) {
        it.room = room;
        must(attempt(&it) == TUFAYON_NO_ROOM && it.written == name.size, "a name has too little room, and it isn't said how much it wants");
        leave(&it);
    }
    if (stride == 1) is_as_it_was(of);
}
