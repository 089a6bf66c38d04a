/* Tables of calls, played. */
#include "playing.h"
#include <ctype.h>

static bytes reply_of(const char *call, const char *reply) {
    static char line[1 << 12];
    int number = 0, kind = 0;
    if (reply == NULL) return (bytes){0};
    must(sscanf(call, "%*s%*s%n%*s%n", &number, &kind) == 0, "a call of the test is wrong");
    if (!isalpha((unsigned char)*reply)) {
        snprintf(line, sizeof line, "%.*s reply %s", kind, call, reply);
    } else {
        int other = 0;
        must(sscanf(reply, "%*s%n", &other) == 0, "a reply of the test is wrong");
        snprintf(line, sizeof line, "%.*s %.*s reply %s", number, call, other, reply, reply + other);
    }
    return frame_of(line);
}

void play_one(tested *of, const char *call, const char *reply, const char *const *changes) {
    parts changed = parts_of(3, changes);
    snprintf(doing, sizeof doing, "%s", call);
    answers(of, frame_of(call), reply_of(call, reply), &changed);
}

void play(tested *of, asked how, const step *steps) {
    for (; steps->call != NULL; steps++) play_one(of, steps->call, steps->reply, steps->changes);
    compares(of, how);
}

void play_asked(tested *of, const asking *steps) {
    for (; steps->request != NULL; steps++) {
        parts changed = parts_of(3, steps->changes);
        asks(of, steps->request, steps->ending, steps->frame ? frame_of(steps->frame) : (bytes){0}, steps->fault, &changed);
    }
}
