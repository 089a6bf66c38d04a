/* An orchestrator in C: the file of `csi-replay orchestrator DB CONFIG`, the frames that it sends, and what it knows. It is asked by lines of words, and
 * answers each by a line; capabilities and frames are in hexadecimal, as in docs/FRAMES.md.
 *     orchestrator DB CONFIG < REQUESTS > ANSWERS
 *     create NAME REQUIRED LIMIT CAPABILITIES       use NAME NODE TARGET CAPABILITY ro|rw       stop NAME NODE TARGET
 *     delete NAME        timeout NAME        reply FRAME        lose NODE
 * It answers `sent FRAME`, `met`, `taken`, `taken FRAME`, `ignored`, `lost` or `refused NUMBER`, and first `wanted NAME..`, of which something is wanted.
 * Who types `lose` promises that the node's machine is off for good, and that its store never comes back; an emptied store is a lost node. All lines that
 * are there together are answered, what they changed is committed in one transaction, and then their answers are written. */
#include "store.h"

enum { LINE = 32 + 2 * TUFAYON_FRAME_ROOM }; /* room for an answer */
static char answers[1 << 16];                /* those that wait */
static size_t waiting;
static uint8_t frame[TUFAYON_FRAME_ROOM];
static size_t written;
static uint32_t fault;

/* A word as an argument of a call: a text, or bytes in hexadecimal. */
typedef struct word {
    uint8_t bytes[2 * TUFAYON_FRAME_ROOM];
    size_t size;
} word;

static void text(word *it, const char *from) { memcpy(it->bytes, from, it->size = strlen(from)); }

static void hex(word *it, const char *from) {
    unsigned byte;
    for (it->size = 0; it->size < sizeof it->bytes && sscanf(from + 2 * it->size, "%2x", &byte) == 1; it->size++) it->bytes[it->size] = (uint8_t)byte;
}

/* Asks what the words say, and how that ends. */
static uint32_t ask(int count, char words[][2 * sizeof frame + 1]) {
    static word name, node, target, given;
    size_t used;
    text(&name, words[1]), text(&node, words[2]), text(&target, words[3]);
    if (strcmp(words[0], "create") == 0) {
        hex(&given, count > 4 ? words[4] : "");
        return tufayon_create(&held, name.bytes, name.size, strtoull(words[2], NULL, 10), strtoull(words[3], NULL, 10), given.bytes, given.size, frame,
                              sizeof frame, &written, &fault);
    }
    if (strcmp(words[0], "use") == 0) {
        hex(&given, words[4]);
        return tufayon_use(&held, name.bytes, name.size, node.bytes, node.size, target.bytes, target.size, given.bytes, given.size,
                           strcmp(words[5], "ro") == 0, frame, sizeof frame, &written, &fault);
    }
    if (strcmp(words[0], "stop") == 0)
        return tufayon_stop(&held, name.bytes, name.size, node.bytes, node.size, target.bytes, target.size, frame, sizeof frame, &written, &fault);
    if (strcmp(words[0], "delete") == 0) return tufayon_delete(&held, name.bytes, name.size, frame, sizeof frame, &written, &fault);
    if (strcmp(words[0], "lose") == 0) return written = 0, tufayon_orchestrator_lose(&held, name.bytes, name.size, &fault);
    if (strcmp(words[0], "timeout") == 0) return tufayon_timeout(&held, name.bytes, name.size, frame, sizeof frame, &written, &fault);
    must(strcmp(words[0], "reply") == 0, "no request");
    hex(&given, words[1]);
    return tufayon_deliver(&held, given.bytes, given.size, &used, frame, sizeof frame, &written, &fault);
}

static void answer(uint32_t ending, const char *asked) {
    const char *done = strcmp(asked, "reply") == 0 ? "taken" : strcmp(asked, "lose") == 0 ? "lost" : "sent";
    must(ending == TUFAYON_DONE || ending == TUFAYON_MET || ending == TUFAYON_IGNORED || ending == TUFAYON_REFUSED, "no request, or no memory");
    char *to = answers + waiting;
    if (ending == TUFAYON_REFUSED) to += sprintf(to, "refused %u", (unsigned)fault);
    else to += sprintf(to, "%s", ending == TUFAYON_MET ? "met" : ending == TUFAYON_IGNORED ? "ignored" : done);
    for (size_t at = 0; ending == TUFAYON_DONE && at < written; at++) to += sprintf(to, at > 0 ? "%02x" : " %02x", frame[at]);
    *to++ = '\n';
    waiting = (size_t)(to - answers);
}

/* Commits what waits, and then writes its answers. A refused commit ends the program, and so nothing is written. */
static void settle(void) {
    commit();
    must(fwrite(answers, 1, waiting, stdout) == waiting && fflush(stdout) == 0, "no output");
    waiting = 0;
}

/* Answers a line, which waits then. */
static void answer_line(const char *line) {
    static char asked[6][2 * sizeof frame + 1];
    memset(asked, 0, sizeof asked);
    int given = sscanf(line, "%2568s%2568s%2568s%2568s%2568s%2568s", asked[0], asked[1], asked[2], asked[3], asked[4], asked[5]);
    uint32_t ending = ask(given, asked);
    if (ending != TUFAYON_REFUSED) put_changes();
    answer(ending, asked[0]);
}

/* The names of which something is wanted: when it begins, their timeouts are due. */
static void tell_wanted(void) {
    static uint8_t name[TUFAYON_NAME_ROOM], goal[TUFAYON_GOAL_ROOM];
    size_t size;
    printf("wanted");
    for (size_t place = 0; tufayon_volume(&held, place, name, sizeof name, &size) == TUFAYON_DONE; place++) {
        must(tufayon_goal(&held, name, size, goal, sizeof goal, &written) == TUFAYON_DONE, "memory");
        if (goal[0] != 0) printf(" %.*s", (int)size, (char *)name);
    }
    must(printf("\n") == 1 && fflush(stdout) == 0, "no output");
}

int main(int count, char **words) {
    static uint8_t config[1 << 16], *record;
    static char lines[1 << 16];
    size_t have = 0;
    FILE *file = count == 3 ? fopen(words[2], "rb") : NULL;
    must(file != NULL, "DB CONFIG");
    size_t size, config_size = fread(config, 1, sizeof config, file);
    open_store(words[1]);
    record = load(&size);
    uint32_t ending = size == 0 ? tufayon_orchestrator_new(config, config_size, &held)
                                : tufayon_orchestrator_from_record(config, config_size, record, size, &held);
    must(ending != TUFAYON_NODE_IN_USE, "a volume may be attached at a node that CONFIG leaves out");
    must(ending == TUFAYON_DONE, ending == TUFAYON_REFUSED ? "no session is left" : "no record of an orchestrator");
    put_changes(); /* its session, before any frame is sent */
    commit();
    tell_wanted();
    for (ssize_t got; (got = read(0, lines + have, sizeof lines - have)) != 0;) {
        char *at = lines, *end;
        must(got > 0, "no input");
        for (have += (size_t)got; (end = memchr(at, '\n', (size_t)(lines + have - at))) != NULL; at = end + 1) {
            *end = 0;
            answer_line(at);
            if (sizeof answers - waiting < LINE) settle();
        }
        settle();
        memmove(lines, at, have = (size_t)(lines + have - at));
        must(have < sizeof lines, "a line that is too long");
    }
    free(record);
    close_store();
    return 0;
}
