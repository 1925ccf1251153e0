/*
 * The bytes between a server of a cell, its clients and its master, for programs in C and whatever calls C. Link
 * out/libcell_server.a and the kit's c/liblibc_c.a.
 *
 * Nothing is kept between two calls, and no call ends the program. Each may be made on any thread, at any time.
 *
 * Who owns what. Each pointer that is passed to a call is the program's: it is there for the call, isn't kept, and isn't null, also
 * where the length beside it is 0. Room that is written to overlaps nothing else that is passed. A struct that is written to has been
 * initialized.
 *
 * A call answers one of the codes below. If it doesn't answer DONE nothing was written. Bytes go to the front of their room where
 * they fit; where they don't the room stays, and how many they are is told nevertheless: the call is made again with more room.
 */
#ifndef CELL_SERVER_H
#define CELL_SERVER_H

#include <stddef.h>
#include <stdint.h>

#ifdef __cplusplus
extern "C" {
#endif

/* What a call answers: one above the byte by which a frame tells what is wrong. */
#define CELL_SERVER_DONE 0u
#define CELL_SERVER_NO_MEMORY 1u
#define CELL_SERVER_TOO_LONG 2u
#define CELL_SERVER_CUT 3u
#define CELL_SERVER_EXTRA 4u
#define CELL_SERVER_BAD_VERSION 5u
#define CELL_SERVER_BAD_KIND 6u
#define CELL_SERVER_BAD_NUMBER 7u
#define CELL_SERVER_BAD_TEXT 8u

/* ---- a client's message */

/* What it asks for. What doesn't belong to its kind is 0. */
struct cell_server_asked {
    /* START, BEAT or CALL. */
    uint32_t what;
    /* Of a call which one. */
    uint32_t call;
    uint64_t client;
    uint64_t epoch;
    /* The message's own. */
    uint64_t number;
    /* Of an OPEN: 1 where it makes a node where none is. */
    uint64_t makes;
    /* That a handle shows: only a master tests its check digits. */
    uint64_t instance;
    /* Of the content that it brings, in bytes. */
    uint64_t length;
    /* Of the name, in bytes: of a START its principal, of an OPEN its name, of another call the name that its handle shows, which may
     * be any bytes. */
    uint64_t name_length;
};

#define CELL_SERVER_START 1u
#define CELL_SERVER_BEAT 2u
#define CELL_SERVER_CALL 3u

#define CELL_SERVER_OPEN 1u
#define CELL_SERVER_CLOSE 2u
#define CELL_SERVER_READ 3u
#define CELL_SERVER_STAT 4u
#define CELL_SERVER_LIST 5u
#define CELL_SERVER_SET 6u
#define CELL_SERVER_SET_ACL 7u
#define CELL_SERVER_DELETE 8u
#define CELL_SERVER_ACQUIRE 9u
#define CELL_SERVER_TRY_ACQUIRE 10u
#define CELL_SERVER_RELEASE 11u
#define CELL_SERVER_GET_SEQUENCER 12u
#define CELL_SERVER_SET_SEQUENCER 13u
#define CELL_SERVER_CHECK_SEQUENCER 14u
#define CELL_SERVER_LEAVE 15u

/* DONE where these bytes are a client's message, and nothing else. Its name goes into the room. */
uint32_t cell_server_asked(const uint8_t *message, size_t length, struct cell_server_asked *out, uint8_t *name, size_t room);

/* ---- a master's message */

struct cell_server_said {
    /* STARTED, ALIVE, REPLY or REFUSED. */
    uint32_t what;
    /* The number of the refusal; of a REPLY 0 where its result is none. */
    uint32_t fault;
    uint64_t client;
    uint64_t epoch;
    /* That of the client's message that it answers. */
    uint64_t number;
    /* For how long there is a lease, in milliseconds. */
    uint64_t span;
    /* 1 where it comes with invalidations or events, which the next Beat acknowledges. */
    uint64_t brings;
};

#define CELL_SERVER_STARTED 1u
#define CELL_SERVER_ALIVE 2u
#define CELL_SERVER_REPLY 3u
#define CELL_SERVER_REFUSED 4u

/* DONE where these bytes are a master's message, and nothing else. */
uint32_t cell_server_said(const uint8_t *message, size_t length, struct cell_server_said *out);

/* ---- what a master tells */

struct cell_server_heard {
    /* LINE, MESSAGE, BAD, END, COUNTS, RECOVERS, WAITS, TOUCHES or AWAITED. */
    uint32_t what;
    /* Of a LINE which one. */
    uint32_t line;
    /* Of a change that was applied: PUT or GONE. */
    uint32_t change;
    /* Of a node that was put: 0 a file, 1 a directory. */
    uint32_t kind;
    /* Of such a node: 0 permanent, 1 ephemeral. */
    uint32_t life;
    /* Of a lock: 0 exclusive, 1 shared. */
    uint32_t mode;
    /* The number of the refusal; of BAD what is wrong with the frame, as frames tell it. */
    uint32_t fault;
    /* Of END: 1 where it tells a moment. */
    uint32_t is_timed;
    uint64_t client;
    /* That by which a change was applied; 0 where the cell did it. */
    uint64_t call;
    /* Of a right, or of a change that waits. */
    uint64_t number;
    uint64_t instance;
    /* Of a node that of its content, of a lock its own. */
    uint64_t generation;
    /* Of a content, in bytes. */
    uint64_t length;
    /* In milliseconds, by the program's clock: of END when there is something to do next, of RECOVERS up to when at the latest. */
    uint64_t moment;
    uint64_t epoch;
    uint64_t sessions;
    uint64_t nodes;
    uint64_t rights;
    uint64_t changes;
    /* Of the name, in bytes. */
    uint64_t name_length;
    /* Of a MESSAGE what it says. All bytes of it stand in the block after the first MESSAGE_AT. */
    struct cell_server_said said;
};

#define CELL_SERVER_LINE 1u
#define CELL_SERVER_MESSAGE 2u
#define CELL_SERVER_BAD 3u
#define CELL_SERVER_END 4u
#define CELL_SERVER_COUNTS 5u
#define CELL_SERVER_RECOVERS 6u
#define CELL_SERVER_WAITS 7u
#define CELL_SERVER_TOUCHES 8u
#define CELL_SERVER_AWAITED 9u

#define CELL_SERVER_MESSAGE_AT 10u

#define CELL_SERVER_LINE_UP 1u
#define CELL_SERVER_LINE_DOWN 2u
#define CELL_SERVER_LINE_RECOVERED 3u
#define CELL_SERVER_LINE_STARTED 4u
#define CELL_SERVER_LINE_ENDED 5u
#define CELL_SERVER_LINE_APPLIED 6u
#define CELL_SERVER_LINE_GRANTED 7u
#define CELL_SERVER_LINE_ACKED 8u
#define CELL_SERVER_LINE_EXPIRED 9u
#define CELL_SERVER_LINE_LOCKED 10u
#define CELL_SERVER_LINE_FREED 11u
#define CELL_SERVER_LINE_LAPSED 12u
#define CELL_SERVER_LINE_REOPENED 13u
/* 14 to 19 only a client prints. */
#define CELL_SERVER_LINE_REFUSED 20u

#define CELL_SERVER_PUT 1u
#define CELL_SERVER_GONE 2u

/* DONE where these bytes are a block that a master tells, without the number in front, and nothing else. Its name goes into the room:
 * of a LINE that of the node that was put or went, or that may be cached; of TOUCHES that of a node that the change may change. */
uint32_t cell_server_heard(const uint8_t *block, size_t length, struct cell_server_heard *out, uint8_t *name, size_t room);

/* The line that such a block tells, as `cellctl run` prints it, without LF; BAD_KIND where it tells something else. */
uint32_t cell_server_text(const uint8_t *block, size_t block_length, uint8_t *room, size_t room_length, size_t *length);

/* ---- what a server writes */

/* To a master, each with the number of its bytes in front: it comes up at a moment; a client's message comes; it does what there is to do; it goes. Moments are milliseconds by the
 * program's clock. cell_server_message carries bytes as they came: what is wrong with them the master tells. */
uint32_t cell_server_up(uint64_t moment, uint8_t *room, size_t room_length, size_t *length);
uint32_t cell_server_message(uint64_t moment, const uint8_t *message, size_t message_length, uint8_t *room, size_t room_length, size_t *length);
uint32_t cell_server_tick(uint64_t moment, uint8_t *room, size_t room_length, size_t *length);
uint32_t cell_server_down(uint8_t *room, size_t room_length, size_t *length);

/* To a client, without a number in front: the reply to its call of this number, for the master of this epoch, that the store refused
 * it. BAD_NUMBER where no client or no call has such a number. */
uint32_t cell_server_store_refused(uint64_t client, uint64_t epoch, uint64_t number, uint8_t *room, size_t room_length, size_t *length);

/* ---- rows that a program keeps for its master: docs/FORMATS.md has what is asked and answered */

/* What a master asks. What doesn't belong to its kind is 0. */
struct cell_server_question {
    /* LOAD or COMMIT. */
    uint32_t what;
    /* Of a COMMIT where the first of its edits stands, in bytes. */
    uint32_t edits_at;
    /* Its number. */
    uint64_t number;
    /* How many edits it has. */
    uint64_t edits;
};

/* All rows; that edits be done in order, all of them or none. */
#define CELL_SERVER_LOAD 1u
#define CELL_SERVER_COMMIT 2u

/* DONE where these bytes are a question, without the number in front, and nothing else. */
uint32_t cell_server_rows_asked(const uint8_t *question, size_t length, struct cell_server_question *out);

struct cell_server_edit {
    /* One of those below. */
    uint32_t what;
    /* Of a node: 0 a file, 1 a directory. */
    uint32_t kind;
    /* Of a node: 0 permanent, 1 ephemeral. */
    uint32_t life;
    /* Of a lock: 0 lapsed, 1 exclusive, 2 shared. */
    uint32_t state;
    /* The epoch, the next instance, or the generation of the lock. */
    uint64_t number;
    uint64_t client;
    /* Of a session: 1 where it is live. */
    uint64_t live;
    uint64_t instance;
    uint64_t handle;
    uint64_t content_generation;
    uint64_t acl_generation;
    /* Of a lock, in milliseconds. */
    uint64_t delay;
    /* Of the node's name, or of the session's principal, in bytes. */
    uint64_t name_length;
    /* Of the ACL names of a node, to read, to write and to change them, and of its content. */
    uint64_t read_length;
    uint64_t write_length;
    uint64_t change_length;
    uint64_t content_length;
    /* How many of the bytes are its own. */
    uint64_t taken;
};

#define CELL_SERVER_EDIT_EPOCH 1u
#define CELL_SERVER_EDIT_NEXT_INSTANCE 2u
/* The generation of the lock of a node that stands there stays; that of a new one is 0. */
#define CELL_SERVER_EDIT_PUT_NODE 3u
/* Of the node at a name, where there is one. */
#define CELL_SERVER_EDIT_LOCK_GENERATION 4u
/* With the locks of its instance. */
#define CELL_SERVER_EDIT_REMOVE_NODE 5u
#define CELL_SERVER_EDIT_PUT_SESSION 6u
#define CELL_SERVER_EDIT_PUT_LOCK 7u
#define CELL_SERVER_EDIT_REMOVE_LOCK 8u
/* Of a session that has ended: nothing is recorded of it any more. */
#define CELL_SERVER_EDIT_REMOVE_SESSION 9u
/* A client number below the number that has no session gets none any more. */
#define CELL_SERVER_EDIT_ENDED_BELOW 10u

/* The edit at the front of these bytes: DONE, and its texts go into the room where they all fit, one after the other: the name, the three
 * ACL names, the content. The edits of a COMMIT are read from `edits_at` on, each after the `taken` of the one before; all of them are
 * there, and then the question is at its end. */
uint32_t cell_server_rows_edit(const uint8_t *edits, size_t length, struct cell_server_edit *out, uint8_t *texts, size_t room);

/* What is told before the rows. */
struct cell_server_own {
    /* How many commits made them. */
    uint64_t number;
    /* How many masters came up. */
    uint64_t epoch;
    /* The instance of the next node. */
    uint64_t next_instance;
    /* A client number below it that has no session gets none any more. */
    uint64_t ended_below;
    /* How many rows follow, and how many bytes they have together. */
    uint64_t rows;
    uint64_t length;
};

struct cell_server_node {
    /* 0 a file, 1 a directory; 0 permanent, 1 ephemeral. */
    uint32_t kind;
    uint32_t life;
    uint64_t instance;
    uint64_t content_generation;
    uint64_t acl_generation;
    uint64_t lock_generation;
};

struct cell_server_lock {
    uint64_t instance;
    uint64_t client;
    uint64_t handle;
    /* 0 lapsed, 1 exclusive, 2 shared. */
    uint64_t state;
    /* In milliseconds. */
    uint64_t delay;
};

/* All rows are told by what this gives, and then the rows, one after the other. BAD_TEXT for a cell that is no component, BAD_NUMBER for
 * a secret that isn't 32 bytes, TOO_LONG where all were 2^32 bytes or more, told in this order. */
uint32_t cell_server_rows_front(const struct cell_server_own *own, const uint8_t *cell, size_t cell_length, const uint8_t *secret,
                                size_t secret_length, uint8_t *room, size_t room_length, size_t *length);

/* The rows. BAD_TEXT for a name, then BAD_KIND for a number that is a choice, then BAD_TEXT for an ACL name or a principal that is none;
 * last of all TOO_LONG for 2^32 bytes or more. */
uint32_t cell_server_rows_node(const struct cell_server_node *node, const uint8_t *name, size_t name_length, const uint8_t *read,
                               size_t read_length, const uint8_t *write, size_t write_length, const uint8_t *change,
                               size_t change_length, const uint8_t *content, size_t content_length, uint8_t *room, size_t room_length,
                               size_t *length);
/* A session is live where that isn't 0. */
uint32_t cell_server_rows_session(uint64_t client, const uint8_t *principal, size_t principal_length, uint64_t live, uint8_t *room,
                                  size_t room_length, size_t *length);
uint32_t cell_server_rows_lock(const struct cell_server_lock *lock, uint8_t *room, size_t room_length, size_t *length);

/* The answer to a COMMIT: its edits stand, or they don't. Both, and the front of rows, have the number of all their bytes in front. */
uint32_t cell_server_rows_kept(uint8_t *room, size_t room_length, size_t *length);
uint32_t cell_server_rows_refused(uint8_t *room, size_t room_length, size_t *length);

#ifdef __cplusplus
}
#endif

#endif
