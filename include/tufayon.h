/*
 * The proved controller and node plugins of Tufayon, and its orchestrator, for programs in C and C++, and in any language that calls C.
 *
 * A plugin gets the bytes of a frame and gives those of its reply. An orchestrator gets a command, a timeout, or the bytes of a frame that came,
 * and gives those of the frame that is to be sent. Neither keeps a file: what a call changed is told, and the program puts that into a store of
 * its own before it sends anything. Then a program that stops at any moment, and is run again over its store, goes on as if it had never
 * stopped. docs/FORMATS.md says what frames and records are, byte by byte.
 *
 *     tufayon_plugin plugin = {0};
 *     ending = tufayon_node_new(id, id_size, &plugin);            or tufayon_node_from_record, of what the store has
 *     commit(ending == TUFAYON_RENEWED);                          what making it changed: a new head, or the whole record
 *     for (;;) {
 *         ending = tufayon_answer(&plugin, frame, size, &used, reply, sizeof reply, &written);
 *         commit(false);
 *         send the reply's `written` bytes, where there are any;
 *     }
 *     tufayon_free(&plugin);
 *
 *     commit(bool anew): begin a transaction of the store, and delete all that it has if `anew`; for place 0, 1, 2 and so on
 *         tufayon_changed(&plugin, place, &key, value, room, &written)
 *     until that is TUFAYON_NO_MORE, put in or take out what it says, or give it more room and ask again; end the transaction.
 *
 * An orchestrator begins a session whenever it is made, so that no number is given to two calls, and has no open call then. So making it always
 * leaves changes, also where it is made of a record: they are committed before any frame is sent. Who doesn't may use a number twice.
 *
 *     tufayon_plugin orchestrator = {0};
 *     ending = tufayon_orchestrator_new(config, config_size, &orchestrator);     or tufayon_orchestrator_from_record, of what the store has
 *     commit(false);                                              the session
 *     for each place of tufayon_volume, if tufayon_goal says that something is wanted of that volume: tufayon_timeout, as below
 *     for (;;) {
 *         ending = tufayon_create, tufayon_use, tufayon_stop, tufayon_delete or tufayon_timeout of a volume, or tufayon_deliver of a frame that came
 *         commit(false);
 *         send the frame's `written` bytes, where there are any, to the plugin that they name, and wait for the reply for so long as is wished;
 *     }                                                           then tufayon_deliver it, or tufayon_timeout
 *     where a node was lost: tufayon_orchestrator_lose, commit(false), and what is wanted goes on by timeouts as at the start
 *     tufayon_free(&orchestrator);
 *
 * Several at once. A commit costs more than many answers, so a program to which several frames have come answers them all and commits once. After
 * each answer it asks for the changes, and keeps them in order, and the reply. Then all changes go into one transaction, in that order: of two under one
 * key the later one stays. Once it has ended, all replies are sent, in order. Commands, timeouts and frames that come to an orchestrator go together in
 * the same way.
 *
 *     for (;;) {
 *         wait for a frame;
 *         for each frame that is there, up to so many as is wished:
 *             tufayon_answer; behind `changes` put what tufayon_changed says of each place, and behind `replies` the reply's bytes, where there are any
 *         begin a transaction, put in and take out all `changes`, end it;    send all `replies`;    and both are empty again
 *     }
 *
 *   - A call on which the program itself acts before it replies (it attaches, formats, mounts) is a group alone: what was answered before it is
 *     committed and sent first.
 *   - Where a commit is refused, or its outcome isn't known, nothing of the group is sent: the handle is freed, and made again of what the store has.
 *   - Where a call fails, what was answered before it is committed and sent as if it hadn't come. Who gives up asking for the changes of a frame that was
 *     answered (TUFAYON_NO_MEMORY) commits and sends what came before it, and then frees the handle and makes it again.
 *
 * Every call but tufayon_free returns a number, below. Unless it is TUFAYON_DONE, TUFAYON_RENEWED, TUFAYON_TAKE_OUT, TUFAYON_MET or
 * TUFAYON_IGNORED, what the handle has and its changes stay as they were: no call leaves anything half done, and after TUFAYON_NO_MEMORY it may be
 * made again. That this number comes only where an allocation was refused isn't proved: tools/library tests that each call succeeds where none is.
 *
 * What a call says beside its number (`used`, `written`, `key`, `fault`, `known`, `session`, `place`, and the bytes in a room) it writes only with the numbers of which its
 * text says so. With any other these stay as they were, but for `used` of tufayon_deliver, which says nothing with TUFAYON_NO_MEMORY; and with
 * TUFAYON_NO_ROOM no byte of a frame was taken. Bytes of a room behind those that were written stay too. That they stay isn't proved: tools/library tests
 * it at each call.
 *
 * What is proved of each call stands in crates/csi_embedded/src, at its name in the files *exports.rt, where it is checked. It supposes of the
 * calling program:
 *
 *   Pointers. None is null, even if a size is 0. Each points to as many bytes as its size says, or to one value. Nothing else uses these during
 *     the call, and only bytes that it reads may overlap.
 *   Handles. A tufayon_plugin is made of zeros, and only these calls write to it. It isn't copied: a copy that is used after the call of another
 *     copy leads to memory that isn't there any more, and nothing tells. It is freed once; freeing an empty one does nothing.
 *   Threads. One call at a time for each handle, and all from the thread that made it. Handles have nothing in common with one another.
 *   Memory. malloc, realloc and free are of one allocator, and align to 16 bytes. No call is made from a signal handler, or in the forked child of
 *     a process with threads.
 *
 * The library and the kit's liblibc_c.a, which is linked with it, need malloc, realloc, free, memcpy, memmove and memset of the C library, and
 * nothing else: no file, no clock, no thread, no output. tools/embed compares this list with their symbols.
 */
#ifndef TUFAYON_H
#define TUFAYON_H

#include <stdbool.h>
#include <stddef.h>
#include <stdint.h>

#ifdef __cplusplus
extern "C" {
#endif

/* The version: this header's here, and the library's by tufayon_version. */
#define TUFAYON_VERSION "1.0.0"

/* The most bytes of a reply, of a frame, of a volume's name, and of what is wanted of a volume. */
#define TUFAYON_REPLY_ROOM 544
#define TUFAYON_FRAME_ROOM 1284
#define TUFAYON_NAME_ROOM 128
#define TUFAYON_GOAL_ROOM 645

/* How a call ends. */
#define TUFAYON_DONE 0
#define TUFAYON_NO_MEMORY 1  /* an allocation was refused */
#define TUFAYON_EMPTY 2      /* the handle has nothing */
#define TUFAYON_FULL 3       /* the handle has something already */
#define TUFAYON_BAD_NAME 4   /* the bytes are no configuration, or no id that a node may have; or no name, no target, or no capabilities */
#define TUFAYON_BAD_RECORD 5 /* the bytes are no record of this plugin, or of this orchestrator */
#define TUFAYON_SHORT 6      /* the bytes are the beginning of a frame: more have to come */
#define TUFAYON_BAD_FRAME 7  /* the bytes begin with no frame, whatever comes */
#define TUFAYON_NO_ROOM 8    /* what is to be written doesn't fit */
#define TUFAYON_RENEWED 9    /* done, and the record was one of an earlier version */
#define TUFAYON_TAKE_OUT 10  /* done: what is under the key is taken out of the store */
#define TUFAYON_NO_MORE 11   /* there are not so many changes, or volumes */
#define TUFAYON_REFUSED 12   /* the orchestrator refuses, for a reason that has a number of its own: docs/LINES.md, "Reports" */
#define TUFAYON_OTHER_KIND 13 /* the call is a plugin's and the handle an orchestrator's, or the other way round */
#define TUFAYON_MET 14       /* done: what is asked is so already, and nothing is sent */
#define TUFAYON_IGNORED 15   /* done: the frame is no reply to an open call, and nothing changed */
#define TUFAYON_EARLIER_SESSION 16 /* the record is of an earlier session than that of the node's joining: it is a lost node's */
#define TUFAYON_NODE_IN_USE 17 /* a volume may be attached at a node of the record that the configuration leaves out */
#define TUFAYON_OLDER_STORE 18 /* a plugin said of an open call that it was stale: the orchestrator's store is an older one */
#define TUFAYON_SAME_NODE 19   /* of a recovery: two of the nodes are one */
#define TUFAYON_NOT_LATER 20   /* of a recovery: the session isn't later than all that the plugins heard of */
#define TUFAYON_DISAGREES 21   /* of a recovery: what a node keeps disagrees with what the controller keeps */
#define TUFAYON_BAD_ROW 22     /* of a recovery: a volume is staged at a node that isn't listed, or is to be unstaged at two */

/* What an orchestrator knows: as in a record. */
#define TUFAYON_KNOWN_NO 0
#define TUFAYON_KNOWN_YES 1
#define TUFAYON_KNOWN_MAYBE 2

/* A plugin or an orchestrator, or nothing where all is zero. The program reads and writes neither field. */
typedef struct tufayon_plugin {
    void *at;
    bool full;
} tufayon_plugin;

/*
 * A new plugin, in an empty handle: a controller under a configuration, which is the JSON that csi-replay reads of a CONFIG file, or the node of
 * an id. Its changes are the first part of its record, which the store has to be given before anything is answered.
 * Fails with TUFAYON_NO_MEMORY, TUFAYON_FULL or TUFAYON_BAD_NAME.
 */
uint32_t tufayon_controller_new(const uint8_t *config, size_t config_size, tufayon_plugin *plugin);
uint32_t tufayon_node_new(const uint8_t *id, size_t id_size, tufayon_plugin *plugin);

/*
 * The plugin of a whole record, in any version, in an empty handle. Its configuration need not be the one that the record was made under. After
 * TUFAYON_DONE the store stays as it is. After TUFAYON_RENEWED the program deletes all that the store has and puts in the changes, which are the
 * whole record in the present version, in one commit, before anything is answered.
 * Fails with TUFAYON_NO_MEMORY, TUFAYON_FULL, TUFAYON_BAD_NAME, or TUFAYON_BAD_RECORD (also if the record is another node's).
 */
uint32_t tufayon_controller_from_record(const uint8_t *config, size_t config_size, const uint8_t *record, size_t record_size,
                                        tufayon_plugin *plugin);
uint32_t tufayon_node_from_record(const uint8_t *id, size_t id_size, const uint8_t *record, size_t record_size, tufayon_plugin *plugin);

/*
 * The node of an id that joins with a session: a new one, to which calls of earlier sessions are stale; and then, at each start, that of its record,
 * where the session is a check, which raises and lowers nothing. The two above are for session 0.
 *
 * The session is the orchestrator's present one when the node joins (csi-replay record has it), at least the session that began when the id was
 * lost, and not above the present one. It is given unchanged at each start: a live node that lags must not be given a newer one. A node whose store
 * was wiped counts as lost: it joins again, with the session of that moment. 0 is right only for an id that was never in an orchestrator's list.
 *
 * Fail as those above; and the second with TUFAYON_EARLIER_SESSION if the record's session, in versions 1 and 2 the greatest of its rows' last calls,
 * is below this one: the store is a lost node's, which must never come back, and stays as it is.
 */
uint32_t tufayon_node_joined(const uint8_t *id, size_t id_size, uint64_t session, tufayon_plugin *plugin);
uint32_t tufayon_node_joined_from_record(const uint8_t *id, size_t id_size, uint64_t session, const uint8_t *record, size_t record_size,
                                         tufayon_plugin *plugin);

/*
 * Answers the frame that the bytes begin with. TUFAYON_DONE: `used` says how many of them it took, and `written` how many bytes the reply has: 0 where
 * it has none, since the frame is a reply, or another plugin's. The room is at least TUFAYON_REPLY_ROOM. Bytes after the first TUFAYON_FRAME_ROOM
 * aren't looked at: give the whole buffer, and then what is left of it.
 * Fails with TUFAYON_NO_MEMORY, TUFAYON_EMPTY, TUFAYON_SHORT, TUFAYON_BAD_FRAME, TUFAYON_NO_ROOM or TUFAYON_OTHER_KIND.
 */
uint32_t tufayon_answer(tufayon_plugin *plugin, const uint8_t *frame, size_t frame_size, size_t *used, uint8_t *reply, size_t reply_room,
                        size_t *written);

/*
 * A new orchestrator of a configuration's nodes, in an empty handle, in session 1: of the JSON that csi-replay reads of a CONFIG file, only the
 * nodes' ids count. Its changes are the first part of its record, which the store has to be given before any frame is sent.
 * Fails with TUFAYON_NO_MEMORY, TUFAYON_FULL or TUFAYON_BAD_NAME.
 */
uint32_t tufayon_orchestrator_new(const uint8_t *config, size_t config_size, tufayon_plugin *orchestrator);

/*
 * The orchestrator of a whole record, in an empty handle, as a restart with the configuration's nodes leaves it: in the session after the record's,
 * with no open call, and without the names whose volumes are gone and of which nothing is wanted, which are free again. Its changes are the session
 * and the nodes, or, where names were forgotten, the whole record: the store has to be given them before any frame is sent. What is wanted of volumes
 * goes on by a tufayon_timeout of each.
 * Fails with TUFAYON_NO_MEMORY, TUFAYON_FULL, TUFAYON_BAD_NAME, TUFAYON_BAD_RECORD, with TUFAYON_REFUSED, if the record's session is the last one:
 * 14, NumbersSpent; or with TUFAYON_NODE_IN_USE, if a volume may be attached at a node of the record that the configuration leaves out: undo first
 * what is there, or take the node as lost.
 */
uint32_t tufayon_orchestrator_from_record(const uint8_t *config, size_t config_size, const uint8_t *record, size_t record_size,
                                          tufayon_plugin *orchestrator);

/*
 * Either, in a session that is named: of no bytes a new orchestrator, and else that of a whole record. Where this session is later than the next one,
 * it begins in place of that. Give the seconds since 1970, by a clock that isn't set back, each time: then a copy of the store begins above whatever
 * session the lost one had, and uses no number again. 0 begins the next one.
 * Fails as those two. There is no session behind 2^64 - 1: what begins that one is never opened again.
 */
uint32_t tufayon_orchestrator_open(const uint8_t *config, size_t config_size, const uint8_t *record, size_t record_size, uint64_t session,
                                   tufayon_plugin *orchestrator);

/*
 * Recovery, where an orchestrator lost its store and the old one never comes back: the session is raised in the plugins, and a new orchestrator is made of
 * what they keep. Everything is stopped, and the program has all of the plugins' stores; a node whose store it hasn't is lost, as by
 * tufayon_orchestrator_lose, and joins again with this session or a later one. In this order, so that nothing is changed where something is refused, and
 * a program that stops at any moment does it all again:
 *
 *     the controller, and the nodes in a row, of what their stores have: tufayon_controller_from_record, tufayon_node_from_record
 *     tufayon_recovery_session, of them;    tufayon_orchestrator_recovered, with that session
 *     for each node, then the controller: tufayon_raise to that session, and commit; after TUFAYON_RENEWED the changes of making it come first, in the same commit
 *     commit(false) of the orchestrator, into its new store; then it is used as one that was made in any other way
 *
 * tufayon_raise raises the session in a plugin, where it is later than all that it heard of, as if a call had begun it: every call of an earlier session is
 * stale from then on. Its changes are the head, and what takes out the rows that are forgotten; none where the session isn't later.
 * Fails with TUFAYON_NO_MEMORY, TUFAYON_EMPTY or TUFAYON_OTHER_KIND.
 *
 * tufayon_recovery_session: with TUFAYON_DONE `session` is that of a recovery: 2^20 above all that the plugins heard of and above `known`, the greatest
 * that is known of the lost orchestrator, 0 where none is: at each start it may have begun one of which no plugin heard. TUFAYON_REFUSED: none is left (14,
 * NumbersSpent). Fails also with TUFAYON_NO_MEMORY, TUFAYON_EMPTY or TUFAYON_OTHER_KIND.
 *
 * tufayon_orchestrator_recovered makes the orchestrator, in an empty handle, with the nodes of a configuration, in the session after this one. Each live
 * volume has a row: it is made, attached where the controller has it, and staged and published as its node has it; what is staged and published nowhere is
 * to be stopped there, at the target "/", which tufayon_goal tells. A node that is lost has its attachments, and nothing staged. Its changes are the whole
 * record, for a store that has nothing. It fails with the first of these that holds, and the plugins stay as they are: TUFAYON_FULL; TUFAYON_BAD_NAME (no
 * configuration); TUFAYON_EMPTY or TUFAYON_OTHER_KIND (the controller, or one of the nodes, is none); TUFAYON_SAME_NODE; TUFAYON_NOT_LATER;
 * TUFAYON_DISAGREES (a volume is staged there, and isn't attached there in that capability, or is published with another flag than it is attached with);
 * TUFAYON_BAD_ROW (a volume is staged at a node that the configuration leaves out, or staged and published nowhere at two); TUFAYON_REFUSED (the session is
 * the last one: 14, NumbersSpent). With TUFAYON_SAME_NODE and TUFAYON_DISAGREES `place` is that of the node in the row, with TUFAYON_BAD_ROW that of the
 * volume among the controller's live ones, by rising id; each counted from 1. Fails also with TUFAYON_NO_MEMORY.
 *
 * The nodes are handles in a row, `nodes_count` of them, each moved there: what is a handle's own struct isn't used while its copy in the row is, and is
 * copied back where it is to be used again. They stay as they are, as does the controller's handle.
 */
uint32_t tufayon_raise(tufayon_plugin *plugin, uint64_t session);
uint32_t tufayon_recovery_session(uint64_t known, tufayon_plugin *controller, tufayon_plugin *nodes, size_t nodes_count, uint64_t *session);
uint32_t tufayon_orchestrator_recovered(const uint8_t *config, size_t config_size, uint64_t session, tufayon_plugin *controller, tufayon_plugin *nodes,
                                        size_t nodes_count, tufayon_plugin *orchestrator, uint64_t *place);

/*
 * Commands, and a timeout: to create a volume of a name; to use it, which publishes it at a target of a node, in a capability; to stop using it
 * there; to delete it; and that its open call timed out, or that something was wanted of it when the orchestrator was made. Texts are of 1 to 128
 * bytes (a name) or 1 to 255. A capability has the bytes that it has in a frame, as {0, 1} for block in mode 1, or {1, 4, 'e', 'x', 't', '4', 1};
 * `capabilities` are at most eight, one after another. `required` and `limit` are bytes, and a limit of 0 is none.
 *
 * TUFAYON_DONE: the frame's `written` bytes are to be sent, once the changes are committed. TUFAYON_MET: nothing is to be sent, and `written` is 0.
 * TUFAYON_REFUSED: `fault` is the refusal's number. TUFAYON_FRAME_ROOM bytes are always room enough for the frame; with less, TUFAYON_NO_ROOM may come,
 * and nothing is done.
 * The plugin that a frame goes to stands at byte 22 of it: 0 for the controller, or 1, and a length byte and the node's id.
 * Fails also with TUFAYON_NO_MEMORY, TUFAYON_EMPTY, TUFAYON_OTHER_KIND, TUFAYON_NO_ROOM, or TUFAYON_BAD_NAME.
 */
uint32_t tufayon_create(tufayon_plugin *orchestrator, const uint8_t *name, size_t name_size, uint64_t required, uint64_t limit,
                        const uint8_t *capabilities, size_t capabilities_size, uint8_t *frame, size_t frame_room, size_t *written, uint32_t *fault);
uint32_t tufayon_use(tufayon_plugin *orchestrator, const uint8_t *name, size_t name_size, const uint8_t *node, size_t node_size,
                     const uint8_t *target, size_t target_size, const uint8_t *capability, size_t capability_size, bool readonly, uint8_t *frame,
                     size_t frame_room, size_t *written, uint32_t *fault);
uint32_t tufayon_stop(tufayon_plugin *orchestrator, const uint8_t *name, size_t name_size, const uint8_t *node, size_t node_size,
                      const uint8_t *target, size_t target_size, uint8_t *frame, size_t frame_room, size_t *written, uint32_t *fault);
uint32_t tufayon_delete(tufayon_plugin *orchestrator, const uint8_t *name, size_t name_size, uint8_t *frame, size_t frame_room, size_t *written,
                        uint32_t *fault);
uint32_t tufayon_timeout(tufayon_plugin *orchestrator, const uint8_t *name, size_t name_size, uint8_t *frame, size_t frame_room, size_t *written,
                         uint32_t *fault);

/*
 * A frame came: the one that the bytes begin with. TUFAYON_DONE: it was the reply to an open call, and the `written` bytes are the next frame to be
 * sent, none where nothing is due now. TUFAYON_IGNORED: it was not, and `written` is 0. TUFAYON_OLDER_STORE: it says of an open call that it was stale.
 * No plugin says so in a run of one orchestrator: the store is an older copy, or another orchestrator runs over one. Nothing is changed; commit nothing
 * more, send nothing more, and end. With these and with TUFAYON_REFUSED `used` says how many bytes it took. Else as a command.
 * Fails with TUFAYON_NO_MEMORY, TUFAYON_EMPTY, TUFAYON_OTHER_KIND, TUFAYON_NO_ROOM, TUFAYON_SHORT, TUFAYON_BAD_FRAME, TUFAYON_REFUSED, or
 * TUFAYON_OLDER_STORE.
 */
uint32_t tufayon_deliver(tufayon_plugin *orchestrator, const uint8_t *came, size_t came_size, size_t *used, uint8_t *frame, size_t frame_room,
                         size_t *written, uint32_t *fault);

/*
 * The node of an id is lost, listed or not. Make this call only if the machine is off for good and its store will never be used again; a node
 * whose store was wiped counts as lost too. A session begins without the node in the list: what was staged and published there is so no more, a use there
 * becomes its stop, open calls are given up, and names whose volumes are gone and of which nothing is wanted are free again. What the controller
 * attached to it stays attached until tufayon_stop there, of any target, or tufayon_timeout detached it. Nothing is sent: what is wanted of volumes
 * goes on by a tufayon_timeout of each. Its changes are the whole record; the session that began stands in the value under key 0 (docs/FORMATS.md,
 * "Records"). The node joins again by tufayon_node_joined, with a session from this one on, and is listed again when the orchestrator is made of its
 * record with a configuration that has it.
 * TUFAYON_REFUSED: `fault` is 14, NumbersSpent, in the last session. Fails also with TUFAYON_NO_MEMORY, TUFAYON_EMPTY, TUFAYON_OTHER_KIND, or
 * TUFAYON_BAD_NAME.
 */
uint32_t tufayon_orchestrator_lose(tufayon_plugin *orchestrator, const uint8_t *node, size_t node_size, uint32_t *fault);

/*
 * What the orchestrator knows: whether the volume of a name is there, is attached to a node, is staged there, and is published at a target there.
 * `known` is one of the three numbers above; TUFAYON_KNOWN_NO of what no call was sent about, and of what was staged or published at a lost node.
 * Fails with TUFAYON_NO_MEMORY, TUFAYON_EMPTY, TUFAYON_OTHER_KIND, or TUFAYON_BAD_NAME.
 */
uint32_t tufayon_exists(tufayon_plugin *orchestrator, const uint8_t *name, size_t name_size, uint32_t *known);
uint32_t tufayon_attached(tufayon_plugin *orchestrator, const uint8_t *name, size_t name_size, const uint8_t *node, size_t node_size, uint32_t *known);
uint32_t tufayon_staged(tufayon_plugin *orchestrator, const uint8_t *name, size_t name_size, const uint8_t *node, size_t node_size, uint32_t *known);
uint32_t tufayon_published(tufayon_plugin *orchestrator, const uint8_t *name, size_t name_size, const uint8_t *node, size_t node_size,
                           const uint8_t *target, size_t target_size, uint32_t *known);

/*
 * What is wanted of the volume of a name, as in a row of a record: the first byte is 0 for nothing (also if there is no such volume), 1 to create it,
 * 2 to use it, 3 to stop using it, 4 to delete it. TUFAYON_GOAL_ROOM bytes are room enough.
 * Fails with TUFAYON_NO_MEMORY, TUFAYON_EMPTY, TUFAYON_OTHER_KIND, TUFAYON_BAD_NAME, or TUFAYON_NO_ROOM: then `written` says how many bytes it has.
 */
uint32_t tufayon_goal(tufayon_plugin *orchestrator, const uint8_t *name, size_t name_size, uint8_t *goal, size_t goal_room, size_t *written);

/*
 * The name of the volume of index `place`, from 0, in the order in which they were first asked for; where names are forgotten, those behind move up.
 * TUFAYON_NO_MORE: there are not so many.
 * TUFAYON_NAME_ROOM bytes are room enough. It takes no memory.
 * Fails with TUFAYON_EMPTY, TUFAYON_OTHER_KIND, or TUFAYON_NO_ROOM: then `written` says how many bytes it has.
 */
uint32_t tufayon_volume(tufayon_plugin *orchestrator, size_t place, uint8_t *name, size_t name_room, size_t *written);

/*
 * The change of index `place`, from 0, among those of the last call that was carried out: of an answered frame, a command, a timeout, a frame
 * that came, a node that was lost, or of making what the handle has. The program puts all of them into the store, in order, in one commit, alone or
 * behind those of calls before it, before it sends what the call gave.
 * TUFAYON_DONE: the `written` bytes of the value are put in under the key, in place of what is there. TUFAYON_TAKE_OUT: what is under the key is
 * taken out, and `written` is 0. TUFAYON_NO_MORE: there are not so many. They stay until the next such call is carried out, and may be asked for again.
 * Fails with TUFAYON_NO_MEMORY, TUFAYON_EMPTY, or TUFAYON_NO_ROOM: then `key` is that of the change, and `written` says how many bytes the value has.
 */
uint32_t tufayon_changed(tufayon_plugin *plugin, size_t place, uint64_t *key, uint8_t *value, size_t value_room, size_t *written);

/*
 * The whole record, in the present version: what the store has, as bytes, if each change was put in. To make such bytes of a store's
 * parts, by rising key, write the version (the first byte of the first part's value), the number of parts in 4 bytes, and for each part its key
 * in 8, the size of its value in 4, and the value. Numbers are big-endian.
 * Fails with TUFAYON_NO_MEMORY, TUFAYON_EMPTY, or TUFAYON_NO_ROOM: then `written` says how many bytes it has.
 */
uint32_t tufayon_record(tufayon_plugin *plugin, uint8_t *record, size_t record_room, size_t *written);

/* Frees what the handle has, and leaves it empty. */
void tufayon_free(tufayon_plugin *plugin);

/*
 * The library's version, MAJOR.MINOR.PATCH in ASCII, without a byte 0 at its end. It takes no memory.
 * Fails with TUFAYON_NO_ROOM: then `written` says how many bytes it has.
 */
uint32_t tufayon_version(uint8_t *text, size_t text_room, size_t *written);

#ifdef __cplusplus
}
#endif

#endif
