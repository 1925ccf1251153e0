/*
 * A client of a cell, for programs in C and whatever calls C. Link out/libcell_client.a and the kit's c/liblibc_c.a.
 *
 * The library knows no clock, socket or thread. The program hands in moments, sends the messages that a step gives, and gives the
 * messages that come.
 *
 * Moments are milliseconds by one clock of the program's own that never goes back, and goes on while the machine sleeps
 * (CLOCK_BOOTTIME on Linux). A moment that is earlier than the last counts as the last. Read the clock before a message is sent.
 *
 * Who owns what. A client that was opened owns its memory until it is closed; then its handle is used no more, and neither is a
 * copy of it. Each pointer that is passed to a call is the program's: it is there for the call, isn't kept, and isn't null, also
 * where the length beside it is 0. Room that is written to overlaps nothing else that is passed.
 *
 * One call at a time on one client. A client may go from thread to thread.
 *
 * A call never ends the program. It answers one of the codes below. If it answers NO_MEMORY, EXHAUSTED, or one of the codes
 * for bytes (81 to 88), nothing has changed: the client, its message, lines and content are as they were. A step that answers
 * anything else has noted the time, and has a message, lines and a content of its own, in the place of those of the step before.
 */
#ifndef CELL_CLIENT_H
#define CELL_CLIENT_H

#include <stddef.h>
#include <stdint.h>

#ifdef __cplusplus
extern "C" {
#endif

/* An open client. */
struct client_exports {
    void *at;
};

/* How a node is opened. What isn't named in an initializer is 0: a plain Open, which makes nothing and is told of nothing. */
struct cell_client_opening {
    /* So many milliseconds nobody else gets a lock that the handle holds when its session expires; at most 60,000. */
    uint64_t lock_delay;
    /* READ, WRITE and CHANGE_ACL, added; at least one. */
    uint8_t mode;
    /* Of which events the client is told: CONTENTS, CHILDREN, LOCK and CONFLICT, added. */
    uint8_t events;
    /* MAKES_NOTHING, MAY_MAKE or MUST_MAKE. */
    uint8_t create;
    /* Of a node that is made: A_FILE or A_DIRECTORY, and PERMANENT or EPHEMERAL. It takes the ACL names of its directory, unless
     * cell_client_open_under names others. */
    uint8_t kind;
    uint8_t life;
};

#define CELL_CLIENT_READ 1u
#define CELL_CLIENT_WRITE 2u
#define CELL_CLIENT_CHANGE_ACL 4u
#define CELL_CLIENT_CONTENTS 1u
#define CELL_CLIENT_CHILDREN 2u
#define CELL_CLIENT_LOCK 4u
#define CELL_CLIENT_CONFLICT 8u
#define CELL_CLIENT_MAKES_NOTHING 0u
/* If a node of the name is there, it is opened. */
#define CELL_CLIENT_MAY_MAKE 1u
/* If a node of the name is there, the call is refused. */
#define CELL_CLIENT_MUST_MAKE 2u
#define CELL_CLIENT_A_FILE 0u
#define CELL_CLIENT_A_DIRECTORY 1u
#define CELL_CLIENT_PERMANENT 0u
#define CELL_CLIENT_EPHEMERAL 1u

/* Modes of a lock. */
#define CELL_CLIENT_EXCLUSIVE 0u
#define CELL_CLIENT_SHARED 1u

/* A line of the last step, in parts. What doesn't belong to a line of its kind is 0. */
struct cell_client_line {
    /* One of the kinds below. */
    uint32_t what;
    /* The number of the refusal. */
    uint32_t fault;
    /* The number of the call that ended; 0 where the client answered by itself. */
    uint64_t call;
    /* The number of the new handle. */
    uint64_t handle;
    /* Of the node that is shown; the generation of its lock only where it is STATED. */
    uint64_t instance;
    uint64_t content_generation;
    uint64_t acl_generation;
    uint64_t lock_generation;
    /* Of the content, or of the sequencer, in bytes. */
    uint64_t length;
    uint32_t kind;
    uint32_t life;
    /* Of a refusal, what docs/FORMATS.md has after its name: a generation, a count, milliseconds, an epoch, a place or a limit; of 8 the
     * KIND that is there, of 10 the right that is missing (READ, WRITE or CHANGE_ACL), of 23 the lock's mode. */
    uint64_t argument;
    /* Of an EVENT, the number of the call that opened its handle; 0 where it is of no handle. */
    uint64_t opened;
    /* How many names of children it shows: cell_client_line_child has them. */
    uint64_t children;
    /* Which EVENT it is, one of those below. */
    uint64_t event;
};

/* There is no such line. */
#define CELL_CLIENT_NO_LINE 0u
/* A call ended: it gave a handle; closed one; poisoned one; gave a node with its content; its numbers; the names of its children; a
 * sequencer; nothing; or was refused. */
#define CELL_CLIENT_OPENED 1u
#define CELL_CLIENT_CLOSED 2u
#define CELL_CLIENT_HANDLE_POISONED 3u
#define CELL_CLIENT_VIEWED 4u
#define CELL_CLIENT_STATED 5u
#define CELL_CLIENT_NAMES 6u
#define CELL_CLIENT_SEQUENCER 7u
#define CELL_CLIENT_OKAY 8u
#define CELL_CLIENT_REFUSED 9u
/* The cache served a node; or that there is none. */
#define CELL_CLIENT_SEEN 10u
#define CELL_CLIENT_ABSENT 11u
/* An event. */
#define CELL_CLIENT_EVENT 12u
/* The session is in jeopardy; safe again; lost. */
#define CELL_CLIENT_JEOPARDY 13u
#define CELL_CLIENT_SAFE 14u
#define CELL_CLIENT_LOST 15u
/* Another line: a client prints none. */
#define CELL_CLIENT_OTHER_LINE 16u

/* Which event: another master has come up, and events may have been missed; the content was set, and the line has the node's instance and
 * its content generation; a child was made, was deleted, had its content set, and cell_client_line_name has its name; the node was deleted;
 * its lock went from free to held; another wants the lock that the handle holds; too many events waited, and some were missed. The first
 * and the last are of no handle. */
#define CELL_CLIENT_FAIL_OVER 1u
#define CELL_CLIENT_CONTENTS_SET 2u
#define CELL_CLIENT_CHILD_ADDED 3u
#define CELL_CLIENT_CHILD_REMOVED 4u
#define CELL_CLIENT_CHILD_MODIFIED 5u
#define CELL_CLIENT_INVALID 6u
#define CELL_CLIENT_LOCK_TAKEN 7u
#define CELL_CLIENT_LOCK_WANTED 8u
#define CELL_CLIENT_EVENTS_LOST 9u

/* Done: there is nothing to send. */
#define CELL_CLIENT_DONE 0u

/*
 * 1 to 43: refused, by the number of the refusal, which is also the one that stands in the lines. docs/FORMATS.md has them all;
 * a step of a client answers these itself.
 */
#define CELL_CLIENT_NO_MEMORY 1u
/* The cache holds that the name has no node, at an Open. */
#define CELL_CLIENT_NOT_FOUND 6u
/* A moment of 2^53 or more, or a number after the last. */
#define CELL_CLIENT_EXHAUSTED 13u
/* The cache holds that the node of this handle is gone. */
#define CELL_CLIENT_STALE_INSTANCE 14u
/* No open handle of this number. */
#define CELL_CLIENT_BAD_HANDLE 17u
/* No session yet, or none was given. */
#define CELL_CLIENT_NO_SESSION 19u
/* The lease has ended: ask again when the lines said "safe", or "lost". */
#define CELL_CLIENT_IN_JEOPARDY 30u
#define CELL_CLIENT_SESSION_EXPIRED 31u
#define CELL_CLIENT_POISONED 32u
/* A call waits for its reply: one at a time. */
#define CELL_CLIENT_CALL_OUTSTANDING 33u
/* What was given is a message that no master sends. */
#define CELL_CLIENT_PROTOCOL_FAULT 35u

/* There is a message to send: cell_client_message. */
#define CELL_CLIENT_SEND 64u

/* Answered out of the cache: there is nothing to send. */
#define CELL_CLIENT_SERVED 65u

/* What is wrong with the bytes that were passed, or why a message has none: as docs/FORMATS.md says of messages as bytes. */
#define CELL_CLIENT_TOO_LONG 81u
#define CELL_CLIENT_CUT 82u
#define CELL_CLIENT_BAD_VERSION 83u
#define CELL_CLIENT_BAD_KIND 84u
#define CELL_CLIENT_BAD_NUMBER 85u
#define CELL_CLIENT_BAD_TEXT 86u
#define CELL_CLIENT_EXTRA 87u
/* A message, but none that asks for a call; a handle in it that isn't 8 bytes; a SetSequencer without a sequencer. (By its parts each
 * call is one, or BAD_NUMBER, BAD_KIND or BAD_TEXT.) */
#define CELL_CLIENT_NO_CALL 88u

/*
 * Opens a client: DONE, and then the address that is written is the handle's `at`. The number is 1 to 2^53-1, and each number is
 * used by one client of the cell alone, ever. The principal is who the client acts for: who carries its messages vouches for it.
 * Else NO_MEMORY, BAD_NUMBER, or BAD_TEXT for a text that is no principal, and nothing is written.
 */
uint32_t cell_client_open(uint64_t number, const uint8_t *principal, size_t principal_length, void **at);

/* ---- steps */

/*
 * Asks for what keeps the session: SEND a Start until the client has a session, then a Beat. DONE where the session is lost, or
 * none was given. The lease that the answer brings counts from `now`. A master answers a Beat when it has something to say, and
 * before the lease ends: beat again as soon as an Alive was given, and when none came for long.
 */
uint32_t cell_client_beat(struct client_exports *client, uint64_t now);

/*
 * ---- Calls by their parts. Each is a step, and answers as cell_client_ask does: SEND, SERVED, DONE or a refusal. A handle is the
 * client's own number for it.
 */

/* Opens a node, or makes it, a file with this content. BAD_NUMBER for another mode or other events, BAD_KIND for another number that
 * is a choice, and BAD_TEXT for another name than /ls/CELL/.., told in this order. */
uint32_t cell_client_open_node(struct client_exports *client, uint64_t now, const uint8_t *name, size_t name_length,
                               const struct cell_client_opening *opening, const uint8_t *content, size_t content_length);

/* The same, and where the node is made it has these ACL names: to read, to write, and to change the ACL names. Last of all BAD_TEXT for one
 * that is no component, also where nothing is made. */
uint32_t cell_client_open_under(struct client_exports *client, uint64_t now, const uint8_t *name, size_t name_length,
                                const struct cell_client_opening *opening, const uint8_t *content, size_t content_length,
                                const uint8_t *read, size_t read_length, const uint8_t *write, size_t write_length,
                                const uint8_t *change, size_t change_length);

uint32_t cell_client_close_handle(struct client_exports *client, uint64_t now, uint64_t handle);

/* Asks for the numbers of the node. */
uint32_t cell_client_stat(struct client_exports *client, uint64_t now, uint64_t handle);

/* Asks for the names of a directory's children. */
uint32_t cell_client_list(struct client_exports *client, uint64_t now, uint64_t handle);

/* Sets the whole content of a file; where `generation` isn't 0, only where that is the present content generation. */
uint32_t cell_client_set(struct client_exports *client, uint64_t now, uint64_t handle, const uint8_t *content, size_t content_length,
                         uint64_t generation);

/* Names the ACLs of a node: to read, to write, and to change the ACL names; BAD_TEXT for one that is no component. Where `generation`
 * isn't 0, only where that is the present ACL generation. */
uint32_t cell_client_set_acl(struct client_exports *client, uint64_t now, uint64_t handle, const uint8_t *read, size_t read_length,
                             const uint8_t *write, size_t write_length, const uint8_t *change, size_t change_length,
                             uint64_t generation);

uint32_t cell_client_delete(struct client_exports *client, uint64_t now, uint64_t handle);

/* Takes the node's lock, EXCLUSIVE or SHARED, else BAD_KIND: waits until it is free, or is refused where it isn't. */
uint32_t cell_client_acquire(struct client_exports *client, uint64_t now, uint64_t handle, uint32_t mode);
uint32_t cell_client_try_acquire(struct client_exports *client, uint64_t now, uint64_t handle, uint32_t mode);

/* Gives the lock back. */
uint32_t cell_client_release(struct client_exports *client, uint64_t now, uint64_t handle);

/* Asks for what describes the lock that the handle holds; cell_client_line_bytes has it then. */
uint32_t cell_client_get_sequencer(struct client_exports *client, uint64_t now, uint64_t handle);

/* The fencing number of a sequencer, in decimal digits with a 0 byte after them: it is greater for each later holder of a lock, also if the
 * node was deleted in between and made again. Whoever holds the lock shows it to what it guards, which takes no number below the
 * greatest that it saw. The answer is how many digits there are; 0 if these are no sequencer's bytes. */
static inline size_t cell_client_fencing_number(const uint8_t *sequencer, size_t sequencer_length, char digits[40]) {
    size_t count = 0;
    uint8_t number[16];
    if (sequencer_length < 18 || sequencer[0] != 1) return 0;
    for (size_t at = 0; at < 16; at++) number[at] = sequencer[2 + at];
    for (int is_zero = 0; !is_zero;) {
        unsigned rest = 0;
        is_zero = 1;
        for (size_t at = 0; at < 16; at++) {
            rest = rest << 8 | number[at];
            number[at] = (uint8_t)(rest / 10);
            rest %= 10;
            if (number[at]) is_zero = 0;
        }
        for (size_t at = count++; at > 0; at--) digits[at] = digits[at - 1];
        digits[0] = (char)('0' + rest);
    }
    digits[count] = 0;
    return count;
}

/* Once this is done each later call on the handle but a Close stands under this sequencer. */
uint32_t cell_client_set_sequencer(struct client_exports *client, uint64_t now, uint64_t handle, const uint8_t *sequencer,
                                   size_t sequencer_length);

/* Asks whether a sequencer is valid still. */
uint32_t cell_client_check_sequencer(struct client_exports *client, uint64_t now, const uint8_t *sequencer, size_t sequencer_length);

/* Ends the session: its locks are free at once. From here on the client serves nothing, and every other call is NO_SESSION. A call that
   waits is given up: no line tells how it ended. Its message takes the place of that call's in cell_client_again. */
uint32_t cell_client_leave(struct client_exports *client, uint64_t now);

/* ---- A call by its bytes, and the other steps. */

/*
 * Asks for a call. `call` are the bytes of a Call as docs/FORMATS.md lays it out, with these differences: a handle is the client's
 * own number for it, as a word (8 bytes, big-endian); and of client, epoch and number, which the client puts by itself, nothing
 * counts but that they are in their ranges. A SetSequencer has the sequencer's bytes at the end; else what stands there isn't used.
 *
 * SEND: the call is outstanding until its reply was given. SERVED: an Open, a read or a ReadDir out of the cache; the lines show the
 * view, of a directory with its children. DONE: the Close of a handle whose node stays open for others. Else a refusal: NOT_FOUND
 * and STALE_INSTANCE out of the cache, all others as above.
 *
 * A Leave ends the session. From then on the cache is empty and off, and each other call is NO_SESSION; go on beating. After "done C N ok"
 * the session is over, and the cell waits for the client no more. If that was refused, ask again.
 */
uint32_t cell_client_ask(struct client_exports *client, uint64_t now, const uint8_t *call, size_t call_length);

/*
 * Asks for the content and the numbers of the node of this handle: as an ask for a Read. SERVED: `length` is how long the content
 * is; if that is at most `room_length` it stands in the room, else the room is as it was (cell_client_content has it then). After
 * any other answer length and room are as they were.
 */
uint32_t cell_client_read(struct client_exports *client, uint64_t now, uint64_t handle, uint8_t *room, size_t room_length, size_t *length);

/*
 * The content that cell_client_read would answer SERVED with now: SERVED, and `length` and the room as there. DONE where it would answer
 * anything else: then length and room are as they were, and cell_client_read tells what to do. No step: nothing changes, no time is
 * noted, and the message, the lines and the content of the last step stay. So where the room was too small the same call again, with
 * `length` bytes of room, has it. It takes no memory; it costs a look-up of the handle, one of its name, and the copy.
 *
 * What it answered holds until the next step, while the lease runs. Who keeps it, as for other threads, forgets it before that step
 * is made: after the message of a step, a Beat or a Leave, the master may change what was answered.
 */
uint32_t cell_client_hit(struct client_exports *client, uint64_t now, uint64_t handle, uint8_t *room, size_t room_length, size_t *length);

/* Poisons this handle: each later call on it but a Close is POISONED. DONE, or a refusal. */
uint32_t cell_client_poison(struct client_exports *client, uint64_t now, uint64_t handle);

/*
 * Gives the client a message of the master, by its bytes. DONE, or PROTOCOL_FAULT; what came of it stands in the lines. A message
 * may come late, twice or never.
 */
uint32_t cell_client_give(struct client_exports *client, uint64_t now, const uint8_t *message, size_t message_length);

/*
 * ---- what came of the last step. These change nothing. They answer DONE and write how long it is; where that is at most
 * `room_length` it stands in the room, else the room is as it was. For another answer, length and room are as they were.
 */

/* The message to send; of length 0 where there is none. */
uint32_t cell_client_message(struct client_exports *client, uint8_t *room, size_t room_length, size_t *length);

/*
 * The lines, each with a LF after it, as docs/SCRIPT.md has them. "done C N RESULT" is how the call of number N ended, or one that the
 * client answered by itself, which is 0: there stands the number of a new handle, and what a call gives. "event C EVENT" tells of an
 * event, "jeopardy C", "safe C" and "lost C" of the session.
 */
uint32_t cell_client_lines(struct client_exports *client, uint8_t *room, size_t room_length, size_t *length);

/*
 * The line that stands at this place among those of the last step, the first at 0; its `what` is NO_LINE after the last.
 */
void cell_client_line(struct client_exports *client, size_t place, struct cell_client_line *line);

/* The content, or the sequencer, that the line at this place shows; of length 0 where it shows none. The length is the answer; where
 * that is at most `room_length` the bytes stand in the room, else the room is as it was. */
size_t cell_client_line_bytes(struct client_exports *client, size_t place, uint8_t *room, size_t room_length);

/*
 * The names that the line at this place shows, in the same way, each of length 0 where it shows none: the last component of the name of a
 * child, the first at 0, in order of bytes; the ACL for READ, WRITE or CHANGE_ACL of the node that is VIEWED, STATED or SEEN; and the whole
 * name of the child that an EVENT is about, or of the node that is SEEN or ABSENT. A component has 64 bytes at most, a whole name 512.
 */
size_t cell_client_line_child(struct client_exports *client, size_t place, size_t index, uint8_t *room, size_t room_length);
size_t cell_client_line_acl(struct client_exports *client, size_t place, uint32_t right, uint8_t *room, size_t room_length);
size_t cell_client_line_name(struct client_exports *client, size_t place, uint8_t *room, size_t room_length);

/* The whole content of the view that the last of the lines shows; of length 0 where that shows none. The length is the answer. */
size_t cell_client_content(struct client_exports *client, uint8_t *room, size_t room_length);

/* ---- how the client stands. These change nothing. */

/* The outstanding call's message, to be sent again, as cell_client_message; of length 0 where no call is outstanding. */
uint32_t cell_client_again(struct client_exports *client, uint8_t *room, size_t room_length, size_t *length);

/*
 * The moment from which on the client trusts its lease no more, if no better one comes; 0 without a lease. Its cache may serve only
 * before that moment.
 */
uint64_t cell_client_leased_until(struct client_exports *client);

/* Closes the client and frees its memory. The cell learns nothing: a session that wasn't ended ends when its lease has run out. */
void cell_client_close(struct client_exports client);

#ifdef __cplusplus
}
#endif

#endif
