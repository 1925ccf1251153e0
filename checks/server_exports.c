/* Calls each export of crates/server_exports by messages and blocks that are laid out by hand, as docs/FORMATS.md says, and compares what
 * comes of it by the structs of include/cell_server.h: so both sides have their fields in the same places. What differs goes to the
 * standard error; the status is 0 where nothing does. */
#include <stdio.h>

#include "../include/cell_server.h"
#include "messages.h"

static int failed = 0;

static void expect(const char *what, int holds) {
    if (!holds) {
        fprintf(stderr, "server_exports: %s\n", what);
        failed = 1;
    }
}

/* A client's Start, with this number. */
static struct bytes start_of(const char *principal, uint64_t number) {
    struct bytes made = {{0}, 0};
    put(&made, 2, 1);
    put(&made, 0, 1);
    put(&made, 1, 8);
    put(&made, number, 8);
    put_text(&made, principal);
    return made;
}

/* The call to set a content by a handle that shows this instance and this name: but for these its bytes are 0. */
static struct bytes set_of(uint64_t instance, const char *name, const char *content) {
    struct bytes made = head(2, 6);
    put(&made, 5, 1);
    put(&made, 50 + strlen(name), 4);
    put(&made, 0, 8);
    put(&made, 0, 8);
    put(&made, 0, 8);
    put(&made, 0, 1);
    put(&made, instance, 8);
    put(&made, 0, 8);
    put(&made, 0, 1);
    memcpy(made.at + made.count, name, strlen(name));
    made.count += strlen(name);
    put(&made, 0, 8);
    put_text(&made, content);
    put(&made, 0, 1); /* no generation */
    put(&made, 0, 1); /* no sequencer */
    return made;
}

static struct bytes open_of(const char *name, const char *content) {
    struct bytes made = head(2, 7);
    put(&made, 0, 1);
    put_text(&made, name);
    put(&made, 3, 1); /* to read and to write */
    put(&made, 1, 1); /* makes it */
    put(&made, 0, 1); /* where none is */
    put(&made, 0, 1); /* a file */
    put_text(&made, content);
    put(&made, 0, 1); /* permanent */
    put(&made, 0, 1); /* no ACL names */
    put(&made, 0, 8); /* no lock-delay */
    put(&made, 0, 1); /* no events */
    put(&made, 0, 1); /* no sequencer */
    return made;
}

static void expect_asked(const char *what, struct bytes message, struct cell_server_asked wanted, const char *name) {
    struct cell_server_asked found = {0};
    uint8_t room[64] = {0};
    expect(what, cell_server_asked(message.at, message.count, &found, room, sizeof room) == CELL_SERVER_DONE);
    wanted.client = 1;
    wanted.name_length = strlen(name);
    expect(what, memcmp(&found, &wanted, sizeof found) == 0 && memcmp(room, name, strlen(name)) == 0);
    found = (struct cell_server_asked){0};
    expect(what, cell_server_asked(message.at, message.count - 1, &found, room, sizeof room) == CELL_SERVER_CUT && found.what == 0);
}

static void asks(void) {
    expect_asked("a Start", start_of("ann", 5), (struct cell_server_asked){.what = CELL_SERVER_START, .number = 5}, "ann");
    struct bytes beat = head(1, 6);
    put(&beat, 3, 8);
    put(&beat, 4, 8);
    expect_asked("a Beat", beat, (struct cell_server_asked){.what = CELL_SERVER_BEAT, .epoch = 1, .number = 6}, "");
    struct cell_server_asked set = {.what = CELL_SERVER_CALL, .call = CELL_SERVER_SET, .epoch = 1, .number = 6, .instance = 4, .length = 3};
    expect_asked("a Set", set_of(4, "/ls/c/f", "new"), set, "/ls/c/f");
    struct cell_server_asked opens = {.what = CELL_SERVER_CALL, .call = CELL_SERVER_OPEN, .epoch = 1, .number = 7, .makes = 1, .length = 2};
    expect_asked("an Open", open_of("/ls/c/g", "hi"), opens, "/ls/c/g");
    struct bytes beyond = start_of("ann", 5);
    uint8_t small[2] = {7, 7};
    struct cell_server_asked found = {0};
    expect("a small room", cell_server_asked(beyond.at, beyond.count, &found, small, 2) == CELL_SERVER_DONE && found.name_length == 3 && small[0] == 7);
}

static void says(void) {
    struct cell_server_said found = {0};
    struct bytes message = started(5, 12000);
    struct cell_server_said wanted = {.what = CELL_SERVER_STARTED, .client = 1, .epoch = 1, .number = 5, .span = 12000};
    expect("a Started", cell_server_said(message.at, message.count, &found) == CELL_SERVER_DONE && memcmp(&found, &wanted, sizeof found) == 0);
    message = head(3, 6);
    put(&message, 27, 1);
    put(&message, 2, 8);
    wanted = (struct cell_server_said){.what = CELL_SERVER_REFUSED, .fault = 28, .client = 1, .epoch = 1, .number = 6};
    expect("a Refused", cell_server_said(message.at, message.count, &found) == CELL_SERVER_DONE && memcmp(&found, &wanted, sizeof found) == 0);
    message = head(1, 7);
    put(&message, 9000, 8);
    put(&message, 0, 4);
    put(&message, 1, 4);
    put(&message, 3, 8);
    put(&message, 0, 1);
    wanted = (struct cell_server_said){.what = CELL_SERVER_ALIVE, .client = 1, .epoch = 1, .number = 7, .span = 9000, .brings = 1};
    expect("an Alive", cell_server_said(message.at, message.count, &found) == CELL_SERVER_DONE && memcmp(&found, &wanted, sizeof found) == 0);
    expect("no message", cell_server_said(message.at, 1, &found) == CELL_SERVER_CUT);
}

static struct bytes block_of(int kind) {
    struct bytes made = {{0}, 0};
    put(&made, 2, 1);
    put(&made, (uint64_t)kind, 1);
    return made;
}

static struct bytes line_of(int kind) {
    struct bytes made = block_of(0);
    put(&made, 2, 1);
    put(&made, (uint64_t)kind, 1);
    return made;
}

static void expect_heard(const char *what, struct bytes block, struct cell_server_heard wanted, const char *name, const char *text) {
    struct cell_server_heard found = {0};
    uint8_t room[128] = {0};
    size_t length = 0;
    expect(what, cell_server_heard(block.at, block.count, &found, room, sizeof room) == CELL_SERVER_DONE);
    wanted.name_length = strlen(name);
    expect(what, memcmp(&found, &wanted, sizeof found) == 0 && memcmp(room, name, strlen(name)) == 0);
    uint32_t code = cell_server_text(block.at, block.count, room, sizeof room, &length);
    if (text == NULL) expect(what, code == CELL_SERVER_BAD_KIND && length == 0);
    else expect(what, code == CELL_SERVER_DONE && length == strlen(text) && memcmp(room, text, length) == 0);
}

static void tells(void) {
    struct bytes block = line_of(0);
    put(&block, 3, 8);
    struct cell_server_heard wanted = {.what = CELL_SERVER_LINE, .line = CELL_SERVER_LINE_UP, .epoch = 3};
    expect_heard("up", block, wanted, "", "up 3");
    block = line_of(9);
    put(&block, 1, 8);
    put(&block, 4, 8);
    put(&block, 1, 1);
    put(&block, 2, 8);
    wanted = (struct cell_server_heard){.what = CELL_SERVER_LINE, .line = CELL_SERVER_LINE_LOCKED, .client = 1, .instance = 4, .mode = 1, .generation = 2};
    expect_heard("locked", block, wanted, "", "locked 1 4 s 2");
    block = line_of(5);
    put(&block, 1, 8);
    put(&block, 7, 8);
    put(&block, 0, 1);
    put_text(&block, "/ls/c/d");
    put(&block, 1, 1); /* a directory */
    put(&block, 5, 8);
    put(&block, 2, 8);
    put(&block, 1, 8);
    for (int i = 0; i < 3; i++) put_text(&block, "base");
    put(&block, 1, 1); /* ephemeral */
    put_text(&block, "");
    put(&block, 1, 4);
    put_text(&block, "a");
    wanted = (struct cell_server_heard){.what = CELL_SERVER_LINE, .line = CELL_SERVER_LINE_APPLIED, .change = CELL_SERVER_PUT, .kind = 1, .life = 1, .client = 1,
                                        .call = 7, .instance = 5, .generation = 2};
    expect_heard("applied", block, wanted, "/ls/c/d", "applied 1 7 put /ls/c/d dir 5 2 1 base base base ephemeral 1 a");
    block = block_of(1);
    put(&block, 1, 8);
    struct bytes message = started(5, 12000);
    memcpy(block.at + block.count, message.at, message.count);
    block.count += message.count;
    expect("where a message stands", block.count - message.count == CELL_SERVER_MESSAGE_AT);
    wanted = (struct cell_server_heard){.what = CELL_SERVER_MESSAGE, .client = 1,
                                        .said = {.what = CELL_SERVER_STARTED, .client = 1, .epoch = 1, .number = 5, .span = 12000}};
    expect_heard("a message", block, wanted, "", NULL);
    block = block_of(3);
    put(&block, 1, 1);
    put(&block, 13000, 8);
    wanted = (struct cell_server_heard){.what = CELL_SERVER_END, .is_timed = 1, .moment = 13000};
    expect_heard("the mark", block, wanted, "", NULL);
    block = block_of(4);
    for (int i = 1; i < 6; i++) put(&block, (uint64_t)i, 8);
    wanted = (struct cell_server_heard){.what = CELL_SERVER_COUNTS, .epoch = 1, .sessions = 2, .nodes = 3, .rights = 4, .changes = 5};
    expect_heard("counts", block, wanted, "", NULL);
    block = block_of(7);
    put_text(&block, "/ls/c/f");
    expect_heard("a name", block, (struct cell_server_heard){.what = CELL_SERVER_TOUCHES}, "/ls/c/f", NULL);
}

/* A frame with its number in front, and what stands after its kind. */
static void expect_frame(const char *what, uint32_t code, const uint8_t *room, size_t length, int kind, struct bytes rest) {
    struct bytes wanted = {{0}, 0};
    put(&wanted, rest.count + 2, 4);
    put(&wanted, 2, 1);
    put(&wanted, (uint64_t)kind, 1);
    memcpy(wanted.at + wanted.count, rest.at, rest.count);
    wanted.count += rest.count;
    expect(what, code == CELL_SERVER_DONE && length == wanted.count && memcmp(room, wanted.at, length) == 0);
}

static void writes(void) {
    uint8_t room[128] = {0};
    size_t length = 0;
    struct bytes moment = {{0}, 0};
    put(&moment, 1000, 8);
    uint32_t code = cell_server_up(1000, room, sizeof room, &length);
    expect_frame("up", code, room, length, 0, moment);
    code = cell_server_tick(1000, room, sizeof room, &length);
    expect_frame("tick", code, room, length, 2, moment);
    code = cell_server_down(room, sizeof room, &length);
    expect_frame("down", code, room, length, 3, (struct bytes){{0}, 0});
    struct bytes message = start_of("ann", 5), both = moment;
    memcpy(both.at + both.count, message.at, message.count);
    both.count += message.count;
    code = cell_server_message(1000, message.at, message.count, room, sizeof room, &length);
    expect_frame("a message", code, room, length, 1, both);
    code = cell_server_message(1000, message.at, message.count - 1, room, sizeof room, &length);
    both.count -= 1;
    expect_frame("bytes that are no message", code, room, length, 1, both);
    struct bytes reply = head(2, 5);
    put(&reply, 0, 1); /* no stamp */
    put(&reply, 7, 1);
    put(&reply, 14, 1);
    code = cell_server_store_refused(1, 1, 5, room, sizeof room, &length);
    expect("a refused reply", code == CELL_SERVER_DONE && length == reply.count && memcmp(room, reply.at, length) == 0);
    expect("no client", cell_server_store_refused(0, 1, 5, room, sizeof room, &length) == CELL_SERVER_BAD_NUMBER);
}

/* ---- rows */

static void put_bytes(struct bytes *to, struct bytes more) {
    memcpy(to->at + to->count, more.at, more.count);
    to->count += more.count;
}

/* A node at a name, as edits and rows have it. */
static void put_node(struct bytes *to, const char *name) {
    put_text(to, name);
    put(to, 1, 1); /* a directory */
    for (int i = 4; i < 7; i++) put(to, (uint64_t)i, 8);
    put_text(to, "base");
    put_text(to, "own");
    put_text(to, "acl");
    put(to, 1, 1); /* ephemeral */
    put_text(to, "hi");
}

static void put_key(struct bytes *to) {
    put(to, 4, 8);
    put(to, 1, 8);
    put(to, 2, 8);
}

/* Each edit in turn, of the bytes after the last one: so all are read, and nothing is left. */
static void expect_edits(struct bytes block, size_t at, const struct cell_server_edit *wanted, const char *const *texts, int count) {
    for (int i = 0; i < count; i++) {
        struct cell_server_edit found = {0}, parts = wanted[i];
        uint8_t room[64] = {0};
        size_t left = block.count - at, length = strlen(texts[i]);
        expect("an edit", cell_server_rows_edit(block.at + at, left, &found, room, sizeof room) == CELL_SERVER_DONE);
        parts.taken = found.taken;
        expect("an edit's parts", memcmp(&found, &parts, sizeof found) == 0 && memcmp(room, texts[i], length) == 0 && room[length] == 0);
        expect("an edit that is cut", found.taken <= left && cell_server_rows_edit(block.at + at, found.taken - 1, &found, room, 0) == CELL_SERVER_CUT);
        at += found.taken;
    }
    expect("nothing after the edits", at == block.count);
}

static void questions(void) {
    struct cell_server_question found = {0}, load = {.what = CELL_SERVER_LOAD};
    struct bytes block = block_of(0);
    expect("a load", cell_server_rows_asked(block.at, block.count, &found) == CELL_SERVER_DONE && memcmp(&found, &load, sizeof found) == 0);
    block = block_of(1);
    put(&block, 7, 8);
    put(&block, 10, 4);
    put(&block, 0, 1); /* the epoch */
    put(&block, 3, 8);
    put(&block, 1, 1); /* the next instance */
    put(&block, 5, 8);
    put(&block, 2, 1);
    put_node(&block, "/ls/c/d");
    put(&block, 3, 1); /* the lock's generation */
    put_text(&block, "/ls/c/d");
    put(&block, 9, 8);
    put(&block, 4, 1); /* it goes */
    put_text(&block, "/ls/c/d");
    put(&block, 5, 1); /* a session, live */
    put(&block, 1, 8);
    put_text(&block, "ann");
    put(&block, 1, 1);
    put(&block, 6, 1); /* a lock, shared */
    put_key(&block);
    put(&block, 2, 1);
    put(&block, 60, 8);
    put(&block, 7, 1); /* it goes */
    put_key(&block);
    put(&block, 8, 1); /* a session goes */
    put(&block, 3, 8);
    put(&block, 9, 1); /* and these have ended */
    put(&block, 4, 8);
    const struct cell_server_edit edits[10] = {
        {.what = CELL_SERVER_EDIT_EPOCH, .number = 3},
        {.what = CELL_SERVER_EDIT_NEXT_INSTANCE, .number = 5},
        {.what = CELL_SERVER_EDIT_PUT_NODE, .kind = 1, .life = 1, .instance = 4, .content_generation = 5, .acl_generation = 6,
         .name_length = 7, .read_length = 4, .write_length = 3, .change_length = 3, .content_length = 2},
        {.what = CELL_SERVER_EDIT_LOCK_GENERATION, .number = 9, .name_length = 7},
        {.what = CELL_SERVER_EDIT_REMOVE_NODE, .name_length = 7},
        {.what = CELL_SERVER_EDIT_PUT_SESSION, .client = 1, .live = 1, .name_length = 3},
        {.what = CELL_SERVER_EDIT_PUT_LOCK, .instance = 4, .client = 1, .handle = 2, .state = 2, .delay = 60},
        {.what = CELL_SERVER_EDIT_REMOVE_LOCK, .instance = 4, .client = 1, .handle = 2},
        {.what = CELL_SERVER_EDIT_REMOVE_SESSION, .client = 3},
        {.what = CELL_SERVER_EDIT_ENDED_BELOW, .number = 4},
    };
    const char *const texts[10] = {"", "", "/ls/c/dbaseownaclhi", "/ls/c/d", "/ls/c/d", "ann", "", "", "", ""};
    struct cell_server_question commit = {.what = CELL_SERVER_COMMIT, .number = 7, .edits = 10, .edits_at = 14};
    expect("a commit", cell_server_rows_asked(block.at, block.count, &found) == CELL_SERVER_DONE && memcmp(&found, &commit, sizeof found) == 0);
    expect_edits(block, found.edits_at, edits, texts, 10);
    expect("a commit that is cut", cell_server_rows_asked(block.at, block.count - 1, &found) == CELL_SERVER_CUT);
    expect("a commit and more", cell_server_rows_asked(block.at, block.count + 1, &found) == CELL_SERVER_EXTRA);
    block.at[1] = 2;
    expect("no question", cell_server_rows_asked(block.at, block.count, &found) == CELL_SERVER_BAD_KIND);
}

static void expect_bytes(const char *what, uint32_t code, const uint8_t *room, size_t length, struct bytes wanted) {
    expect(what, code == CELL_SERVER_DONE && length == wanted.count && memcmp(room, wanted.at, length) == 0);
}

static struct bytes row_of(int kind) {
    struct bytes made = {{0}, 0};
    put(&made, (uint64_t)kind, 1);
    return made;
}

static uint32_t node_row(struct cell_server_node node, const char *name, const char *change, uint8_t *room, size_t *length) {
    return cell_server_rows_node(&node, (const uint8_t *)name, strlen(name), (const uint8_t *)"base", 4, (const uint8_t *)"own", 3,
                                 (const uint8_t *)change, strlen(change), (const uint8_t *)"hi", 2, room, 512, length);
}

static void rows(void) {
    uint8_t room[512] = {0};
    size_t length = 0;
    struct cell_server_node node = {.kind = 1, .life = 1, .instance = 4, .content_generation = 5, .acl_generation = 6, .lock_generation = 9};
    struct bytes wanted = row_of(0), all = {{0}, 0};
    put_node(&wanted, "/ls/c/d");
    put(&wanted, 9, 8);
    uint32_t code = node_row(node, "/ls/c/d", "acl", room, &length);
    expect_bytes("a node", code, room, length, wanted);
    put_bytes(&all, wanted);
    expect("no name", node_row(node, "d", "", room, &length) == CELL_SERVER_BAD_TEXT);
    expect("no ACL name", node_row(node, "/ls/c/d", "", room, &length) == CELL_SERVER_BAD_TEXT);
    node.kind = 2;
    expect("no kind", node_row(node, "/ls/c/d", "", room, &length) == CELL_SERVER_BAD_KIND);
    wanted = row_of(1);
    put(&wanted, 1, 8);
    put_text(&wanted, "ann");
    put(&wanted, 1, 1);
    code = cell_server_rows_session(1, (const uint8_t *)"ann", 3, 9, room, sizeof room, &length);
    expect_bytes("a session", code, room, length, wanted);
    put_bytes(&all, wanted);
    struct cell_server_lock lock = {.instance = 4, .client = 1, .handle = 2, .state = 2, .delay = 60};
    wanted = row_of(2);
    put_key(&wanted);
    put(&wanted, 2, 1);
    put(&wanted, 60, 8);
    code = cell_server_rows_lock(&lock, room, sizeof room, &length);
    expect_bytes("a lock", code, room, length, wanted);
    put_bytes(&all, wanted);
    struct cell_server_own own = {.number = 7, .epoch = 3, .next_instance = 5, .ended_below = 9, .rows = 3, .length = all.count};
    struct bytes front = block_of(0);
    put(&front, 7, 8);
    put_text(&front, "c");
    put(&front, 32, 4);
    for (int i = 0; i < 32; i++) put(&front, (uint64_t)i, 1);
    put(&front, 3, 8);
    put(&front, 5, 8);
    put(&front, 9, 8);
    put(&front, 3, 4);
    wanted = (struct bytes){{0}, 0};
    put(&wanted, front.count + all.count, 4);
    put_bytes(&wanted, front);
    uint8_t secret[32];
    for (int i = 0; i < 32; i++) secret[i] = (uint8_t)i;
    const uint8_t *cell = (const uint8_t *)"c";
    code = cell_server_rows_front(&own, cell, 1, secret, 32, room, sizeof room, &length);
    expect_bytes("what stands in front of rows", code, room, length, wanted);
    expect("no secret", cell_server_rows_front(&own, cell, 1, secret, 31, room, sizeof room, &length) == CELL_SERVER_BAD_NUMBER);
    own.length = UINT32_MAX - front.count;
    expect("the most rows", cell_server_rows_front(&own, cell, 1, secret, 32, room, sizeof room, &length) == CELL_SERVER_DONE);
    own.length += 1;
    expect("too many rows", cell_server_rows_front(&own, cell, 1, secret, 32, room, sizeof room, &length) == CELL_SERVER_TOO_LONG);
    struct bytes none = {{0}, 0};
    code = cell_server_rows_kept(room, sizeof room, &length);
    expect_frame("kept", code, room, length, 1, none);
    code = cell_server_rows_refused(room, sizeof room, &length);
    expect_frame("refused", code, room, length, 2, none);
}

int main(void) {
    asks();
    says();
    tells();
    writes();
    questions();
    rows();
    return failed;
}
