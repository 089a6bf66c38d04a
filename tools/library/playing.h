/* Tables of calls. */
#ifndef PLAYING_H
#define PLAYING_H

#include "library.h"

/* A call, as `frame_of` reads it; its reply's status, id and detail, with another kind before them where that isn't the call's, or none; and what
 * it changes, as `part_of` reads it. */
typedef struct step {
    const char *call, *reply, *changes[24];
} step;

/* A request; the frame that is to be sent, or none; how it ends, with a refusal's number; and what it changes, as `part_of` reads it. */
typedef struct asking {
    const char *request, *frame;
    uint32_t ending, fault;
    const char *changes[4];
} asking;

/* Asks what they say, up to one without a request, each with what `asks` does. */
void play_asked(tested *of, const asking *steps);
/* Plays steps, up to one without a call, each with what `answers` does. At the end the plugin of its record is compared. */
void play(tested *of, asked how, const step *steps);
/* Plays one step, of which the texts are made. */
void play_one(tested *of, const char *call, const char *reply, const char *const *changes);

#endif
