/* The test of the C library: what it is given and what it has to answer is spelled here from docs/FORMATS.md and include/tufayon.h, never by the
 * library itself. `tools/embed` builds and runs it. */
#ifndef LIBRARY_H
#define LIBRARY_H

#include "tufayon.h"
#include <stdio.h>
#include <stdlib.h>
#include <string.h>

/* Says which case fails, and ends the test. */
_Noreturn void fail(const char *file, int line, const char *why);
#define must(good, why) ((good) ? (void)0 : fail(__FILE__, __LINE__, why))
extern char doing[1 << 12];           /* what the test is at */
extern unsigned long cases, refusals; /* how many calls it compared, and of how many it refused an allocation */

/* ---- memory (memory.c): the library's allocations, counted and refused; the test's own are made by `grow` */

extern long held;              /* blocks that the library has */
extern bool was_refused;       /* whether one was, since `refuse` */
void refuse(unsigned long at); /* refuses this allocation from now, 1 the next one; with 0 none */
void *grow(void *old, size_t size);
void give_back(void *it);

/* ---- bytes (spelling.c) */

typedef struct bytes {
    uint8_t *at;
    size_t size, room;
} bytes;

/* A part, or one that is taken out. */
typedef struct part {
    uint64_t key;
    bool gone;
    bytes value;
} part;

typedef struct parts {
    part *at;
    size_t count, room;
} parts;

void put(bytes *to, const void *from, size_t size);
void put_number(bytes *to, uint64_t number, int size);
bool same(bytes a, bytes b);

/* The frame of a line in the form of `csi-replay show`, without its place. A text with *N behind it is repeated so often. */
bytes frame_of(const char *line);

/* The part of a line, in a version:
 *   head NEXT SESSION                    head "n1" SESSION                    gone ID
 *   ID live "v" 10 block/1 ; "n1" block/1 rw ; 1.3 ControllerPublishVolume 0 0 ""
 *   ID block/1 ; "/a" rw ; 1.4 NodePublishVolume 0 0 ""                       ID - ; ; 1.6 NodeUnstageVolume 0 0 ""
 * and of an orchestrator, with what is known of it, its goal, its tries, and what is known at each of its nodes:
 *   nodes SESSION "n1" "n2"              PLACE volume "v" 10 0 block/1 ; - maybe create 1 ;
 *   PLACE volume "v" 10 0 block/1 ; 1 yes use "n1" "/a" block/1 rw 1 ; "n1" block/1 rw yes maybe "/a" no , */
part part_of(const char *line, int version);
void add(parts *to, part it);
/* The parts of lines up to a null. */
parts parts_of(int version, const char *const *lines);
/* What is wanted, in such words: the bytes of a goal. */
bytes goal_of(const char *line);

/* What an orchestrator is asked, or told. */
typedef struct request {
    enum request_kind {
        ASK_CREATE, ASK_USE, ASK_STOP, ASK_DELETE, ASK_TIMEOUT, ASK_DELIVER, ASK_LOSE, ASK_EXISTS, ASK_ATTACHED, ASK_STAGED, ASK_PUBLISHED,
        ASK_GOAL
    } kind;
    bytes name, node, target, capabilities, came; /* of texts, the bytes alone */
    uint64_t required, limit;
    bool readonly;
} request;

/* The request of a line:
 *   create "v" 10 0 block/1 block/5      use "v" "n1" "/a" block/1 rw         stop "v" "n1" "/a"      delete "v"      timeout "v"
 *   deliver FRAME        lose "n1"       exists "v"       attached "v" "n1"   staged "v" "n1"         published "v" "n1" "/a"     goal "v" */
request request_of(const char *line);

/* ---- stores (stores.c) */

/* Puts a part into a store, or takes it out. */
void change(parts *store, part it);
/* The bytes of a whole record; and the parts of one. */
bytes record_of(const parts *store, int version);
parts parts_in(bytes record);

/* ---- sessions of an orchestrator (sessions.c) */

/* The nodes of a configuration, as its head has them: how many, and their ids. */
bytes nodes_of(const char *config);
/* An orchestrator's parts in the next session, with these nodes: without the names that are forgotten. */
parts next_session(const parts *store, bytes nodes);
/* What the store has to be given then: the head, or the whole record where names were forgotten. */
parts told_at(const parts *before, const parts *after);
/* The whole record: all its parts, and those that are behind them taken out. */
parts whole_of(const parts *before, const parts *after);

/* ---- calls (calls.c) */

/* A handle, and what is expected of it. */
typedef struct tested {
    tufayon_plugin plugin;
    bool has;     /* whether it has a plugin */
    parts store;  /* its parts */
    parts told;   /* the changes that it tells */
    bytes record; /* of the store */
} tested;

/* How something is asked for: a controller under a configuration, a node of an id, which joined with a session or with none, or an orchestrator of a
 * configuration's nodes, which is opened in a session or in the next one; and a record or none. */
typedef struct asked {
    enum asked_kind { AS_CONTROLLER, AS_NODE, AS_ORCHESTRATOR } kind;
    bytes name, record, nodes; /* nodes: of an orchestrator, as in its head */
    bool from_record, joined;
    uint64_t session;
} asked;

/* Every how many-th allocation is refused: with 1 each, and then all is compared at each call; with 0 none. */
extern unsigned long stride;

asked as_controller(const char *config);
asked as_node(const char *id);
asked as_orchestrator(const char *config);
asked joined_node(const char *id, uint64_t session);
asked in_session(asked it, uint64_t session);
asked of_record(asked it, bytes record);

/* Makes a plugin, which ends so; where it is made it has this store and tells these changes. Each allocation is refused once. */
void makes(tested *of, asked how, uint32_t ending, const parts *store, const parts *told);
/* Answers a frame, with this reply (of no bytes: none) and these changes. It is cut at each byte, given with too little room, and each allocation
 * is refused once. */
void answers(tested *of, bytes frame, bytes reply, const parts *changes);
/* These bytes are answered with this ending, and all stays. */
void refuses(tested *of, bytes frame, uint32_t ending);
/* The plugin has the store and tells the changes that are expected, and so has one of its record: of an orchestrator, in the next session. */
void compares(tested *of, asked how);
/* Asks an orchestrator, or hands it a frame, which ends so: with this frame to be sent (of no bytes: none), this refusal, and these changes. It is
 * given with too little room, a frame is cut at each byte, and each allocation is refused once. */
void asks(tested *of, const char *line, uint32_t ending, bytes frame, uint32_t fault, const parts *changes);
/* Tells an orchestrator that a node is lost, which ends so: with this refusal; or with this store, and the whole record told. */
void loses(tested *of, const char *line, uint32_t ending, uint32_t fault, const parts *after);
/* It knows so much of a thing, and wants this of a volume; and the volume at a place has this name. All stays. */
void knows(tested *of, const char *line, uint32_t ending, uint32_t known);
void wants(tested *of, const char *line, uint32_t ending, bytes goal);
void names(tested *of, size_t place, uint32_t ending, bytes name);
void frees(tested *of);

/* ---- endings (endings.c) */

enum { ROW_ANSWER = 4, ROW_ORCHESTRATORS = 7, ROW_REQUESTS = 9, ROW_VOLUME = 21, ROW_JOINED = 22, ROW_OPENED = 24, ROW_RAISE, ROW_SESSION, ROW_RECOVERED }; /* where calls stand */
void see(size_t row, uint32_t ending); /* the call of this row ended so */

/* ---- cases */

void test_examples(void);
void test_handles(void);
void test_controller(void);
void test_node(void);
void test_joined(void);
void test_frames(void);
void test_groups(void);
void test_records(void);
void test_damaged(void);
void test_full(void);
void test_orchestrator(void);
void test_orchestrator_records(void);
void test_losing(void);
void test_many(void);
void test_recovering(void);
void test_endings(void); /* after the others: each call has had each of its endings */

#endif
