/* What calls.c, asking.c and recovering.c share. */
#ifndef CALLS_H
#define CALLS_H

#include "library.h"

/* What a call is given, and what it says. */
typedef struct call {
    enum { MAKE, ANSWER, CHANGED, RECORD, ASK, VOLUME } what;
    tested *of;
    asked how;
    request asks;
    bytes given;
    size_t place, room;
    uint8_t *to;
    size_t used, written;
    uint64_t key;
    uint32_t number; /* a refusal's, or of what is known */
} call;

/* Makes the call, in whose room nothing was written before, and sees that it writes nothing but what the header says. */
uint32_t attempt(call *it);
void leave(call *it); /* frees the room */
/* The ending of a call, of which nothing else is looked at. */
uint32_t ending_of(call it);
/* Makes a call again and again, each time with another allocation refused, until none is. Each refusal leaves all as it was. */
uint32_t each_refused(call *it);
/* The changes that it tells come, in order, to those that are expected. */
void tells(tested *of, bool in_full);
/* All is as it was. */
void is_as_it_was(tested *of);
/* It has the store and tells the changes that are expected. */
void compare(tested *of);
/* It was made, with this store and these changes. */
void was_made(tested *of, const parts *store, const parts *told);
parts copy_of(const parts *from);

#endif
