/* Calls each export of the client library, and compares what it answers with values laid out by hand. Run by checks/client. */
#include <stdio.h>
#include <string.h>

#include "../include/cell_client.h"
#include "messages.h"

static int wrong;

static void expect(const char *what, uint64_t found, uint64_t wanted) {
    if (found == wanted) return;
    fprintf(stderr, "%s: %llu, and not %llu\n", what, (unsigned long long)found, (unsigned long long)wanted);
    wrong++;
}

/* ---- what is answered */

static uint32_t ask(struct client_exports *client, uint64_t now, struct bytes call) {
    return cell_client_ask(client, now, call.at, call.count);
}

static uint32_t give(struct client_exports *client, uint64_t now, struct bytes message) {
    return cell_client_give(client, now, message.at, message.count);
}

static void expect_lines(struct client_exports *client, const char *wanted) {
    uint8_t room[512];
    size_t length = 0;
    expect("lines", cell_client_lines(client, room, sizeof room, &length), CELL_CLIENT_DONE);
    if (length == strlen(wanted) && memcmp(room, wanted, length) == 0) return;
    fprintf(stderr, "lines: %.*s, and not %s\n", (int)length, (const char *)room, wanted);
    wrong++;
}

typedef uint32_t shown(struct client_exports *, uint8_t *, size_t, size_t *);

/* How many bytes it shows, and the last of them. */
static void expect_message(shown *shows, struct client_exports *client, size_t count, int last) {
    uint8_t room[512] = {0};
    size_t length = 9999;
    expect("message", shows(client, room, sizeof room, &length), CELL_CLIENT_DONE);
    expect("message's length", length, count);
    if (count > 0) expect("message's last byte", room[count - 1], (uint64_t)last);
    expect("room after it", room[count], 0);
    if (count == 0) return;
    uint8_t none[1] = {7};
    expect("message without room", shows(client, none, 1, &length), CELL_CLIENT_DONE);
    expect("its length", length, count);
    expect("the room stays", none[0], 7);
}

static void opens(void) {
    struct client_exports client = {0};
    expect("number 0", cell_client_open(0, (const uint8_t *)"ann", 3, &client.at), CELL_CLIENT_BAD_NUMBER);
    expect("number 2^53", cell_client_open((uint64_t)1 << 53, (const uint8_t *)"ann", 3, &client.at), CELL_CLIENT_BAD_NUMBER);
    expect("no principal", cell_client_open(1, (const uint8_t *)"Ann", 3, &client.at), CELL_CLIENT_BAD_TEXT);
    expect("no UTF-8", cell_client_open(1, (const uint8_t *)"\xff", 1, &client.at), CELL_CLIENT_BAD_TEXT);
    expect("nothing is written", client.at == NULL, 1);
    expect("the last number", cell_client_open(((uint64_t)1 << 53) - 1, (const uint8_t *)"ann", 3, &client.at), CELL_CLIENT_DONE);
    cell_client_close(client);
}

/* Bytes that are none, or ask for nothing: the message, the lines and the lease stay. */
static void refuses(struct client_exports *client) {
    struct bytes start = head(0, 1), call = call_on(2, 1, 8);
    expect("a call that is cut", ask(client, 1010, call), CELL_CLIENT_CUT);
    put(&call, 0, 1);
    put(&call, 0, 1);
    expect("bytes after a call", ask(client, 1010, call), CELL_CLIENT_EXTRA);
    call.at[0] = 1;
    expect("another version", ask(client, 1010, call), CELL_CLIENT_BAD_VERSION);
    call = head(3, 1);
    expect("another kind", ask(client, 1010, call), CELL_CLIENT_BAD_KIND);
    start = (struct bytes){{0}, 0};
    put(&start, 0x0200, 2);
    put(&start, 1, 8);
    put(&start, 1, 8);
    put_text(&start, "ann");
    expect("a Start", ask(client, 1010, start), CELL_CLIENT_NO_CALL);
    call = call_on(2, 1, 7);
    put(&call, 0, 1);
    expect("a handle of 7 bytes", ask(client, 1010, call), CELL_CLIENT_NO_CALL);
    call = call_on(12, 1, 8);
    put(&call, 0, 1);
    expect("no sequencer to set", ask(client, 1010, call), CELL_CLIENT_NO_CALL);
    call = open_call("no name");
    expect("an Open of no name", ask(client, 1010, call), CELL_CLIENT_BAD_TEXT);
    expect("a request of number 0", give(client, 1010, started(0, 12000)), CELL_CLIENT_BAD_NUMBER);
    expect("a moment of 2^53", cell_client_beat(client, (uint64_t)1 << 53), CELL_CLIENT_EXHAUSTED);
    expect_message(cell_client_message, client, 25, 'n');
}

struct look {
    const char *what;
    uint64_t now, handle;
    size_t room;
    int is_served;
};

/* Hits of the content "hello" of handle 1; a small room stays as it is. */
static void looks(struct client_exports *client, const struct look *row, size_t rows) {
    for (; rows > 0; row++, rows--) {
        uint8_t room[8] = "........";
        size_t length = 9999;
        const char *wanted = row->is_served && row->room >= 5 ? "hello..." : "........";
        uint32_t code = cell_client_hit(client, row->now, row->handle, room, row->room, &length);
        expect(row->what, code, row->is_served ? CELL_CLIENT_SERVED : CELL_CLIENT_DONE);
        expect(row->what, length, row->is_served ? 5 : 9999);
        expect(row->what, (uint64_t)memcmp(room, wanted, 8), 0);
    }
}

#define LOOKS(client, rows) looks(client, rows, sizeof rows / sizeof *rows)

static const struct look before_a_read[] = {
    {"a hit of no handle", 1010, 1, 8, 0},
};
static const struct look while_cached[] = {
    {"a hit", 1013, 1, 8, 1},
    {"a hit of just its room", 1013, 1, 5, 1},
    {"a hit of too little room", 1013, 1, 4, 1},
    {"a hit of another handle", 1013, 2, 8, 0},
    {"a hit of handle 0", 1013, 0, 8, 0},
    {"a hit at the end of the lease", 12294, 1, 8, 0},
    {"a hit at the last moment of all", ((uint64_t)1 << 53) - 1, 1, 8, 0},
    {"a hit at no moment", (uint64_t)1 << 53, 1, 8, 0},
    {"a hit at the last moment of the lease", 12293, 1, 8, 1},
    {"a hit at a moment that is over", 0, 1, 8, 1},
};
static const struct look once_poisoned[] = {
    {"a hit of a poisoned handle", 12293, 1, 8, 0},
};
static const struct look in_jeopardy[] = {
    {"a hit in jeopardy", 12294, 1, 8, 0},
    {"a hit in jeopardy, at an earlier moment", 12293, 1, 8, 0},
};

static void begins(struct client_exports *client) {
    expect("no lease", cell_client_leased_until(client), 0);
    expect_message(cell_client_message, client, 0, 0);
    expect("a beat", cell_client_beat(client, 1000), CELL_CLIENT_SEND);
    refuses(client);
    expect("a span of 2^53", give(client, 1005, started(1, (uint64_t)1 << 53)), CELL_CLIENT_PROTOCOL_FAULT);
    expect("no session yet", ask(client, 1005, open_call("/ls/c/f")), CELL_CLIENT_NO_SESSION);
    expect("a Started", give(client, 1005, started(1, 12000)), CELL_CLIENT_DONE);
    expect_message(cell_client_message, client, 0, 0);
    expect("a lease", cell_client_leased_until(client), 12294);
}

static void reads(struct client_exports *client) {
    uint8_t room[8] = "........";
    size_t length = 9999;
    LOOKS(client, before_a_read);
    expect("no such handle", cell_client_read(client, 1010, 1, room, sizeof room, &length), CELL_CLIENT_BAD_HANDLE);
    expect("an Open", ask(client, 1010, open_call("/ls/c/f")), CELL_CLIENT_SEND);
    expect_message(cell_client_message, client, 50, 0);
    expect("another call", ask(client, 1010, open_call("/ls/c/g")), CELL_CLIENT_CALL_OUTSTANDING);
    expect_message(cell_client_message, client, 0, 0);
    expect_message(cell_client_again, client, 50, 0);
    expect("its reply", give(client, 1011, opened(1)), CELL_CLIENT_DONE);
    expect_lines(client, "done 1 1 opened 1\n");
    expect_message(cell_client_again, client, 0, 0);
    expect("a read", cell_client_read(client, 1012, 1, room, sizeof room, &length), CELL_CLIENT_SEND);
    expect("the length stays", length, 9999);
    expect("a view", give(client, 1013, viewed(2, "hello")), CELL_CLIENT_DONE);
    expect_lines(client, "done 1 2 view file 4 1 1 base base base permanent 5 68656c6c6f\n");
    expect("its content", cell_client_content(client, room, sizeof room), 5);
    expect("its bytes", (uint64_t)memcmp(room, "hello...", 8), 0);
    LOOKS(client, while_cached);
    expect_lines(client, "done 1 2 view file 4 1 1 base base base permanent 5 68656c6c6f\n");
}

static void serves(struct client_exports *client) {
    uint8_t room[8] = "........";
    size_t length = 9999;
    expect("a read of the cache", cell_client_read(client, 12293, 1, room, 4, &length), CELL_CLIENT_SERVED);
    expect("its length", length, 5);
    expect("too little room", (uint64_t)memcmp(room, "........", 8), 0);
    expect("its content", cell_client_content(client, room, sizeof room), 5);
    expect("all of it", (uint64_t)memcmp(room, "hello...", 8), 0);
    expect_lines(client, "served 1 /ls/c/f file 4 1 1 base base base permanent 5 68656c6c6f\n");
    expect("another read", cell_client_read(client, 12293, 1, room, 5, &length), CELL_CLIENT_SERVED);
    expect("a Poison", cell_client_poison(client, 12293, 1), CELL_CLIENT_DONE);
    expect_lines(client, "done 1 0 poisoned\n");
    LOOKS(client, once_poisoned);
    expect("a poisoned handle", cell_client_read(client, 12293, 1, room, sizeof room, &length), CELL_CLIENT_POISONED);
    expect("behind the lease", cell_client_read(client, 12294, 1, room, sizeof room, &length), CELL_CLIENT_IN_JEOPARDY);
    expect_lines(client, "jeopardy 1\n");
    LOOKS(client, in_jeopardy);
    expect("no content", cell_client_content(client, room, sizeof room), 0);
    expect("behind the jeopardy", cell_client_read(client, 57294, 1, room, sizeof room, &length), CELL_CLIENT_SESSION_EXPIRED);
    expect_lines(client, "lost 1\n");
    expect("nothing to keep", cell_client_beat(client, 57294), CELL_CLIENT_DONE);
}

/* ---- calls by their parts, each beside the bytes of its message, and lines in parts */

static void same(const char *what, const void *found, size_t length, const void *wanted, size_t count) {
    expect(what, length, count);
    if (length == count) expect(what, (uint64_t)(memcmp(found, wanted, count) != 0), 0);
}

/* The call on the master's handle of this kind and number; who calls it puts what else is in it. */
static struct bytes sent_call(int kind, uint64_t number) {
    struct bytes made = head(2, number);
    put(&made, (uint64_t)kind, 1);
    put_text(&made, "the master's handle");
    return made;
}

static struct bytes with(struct bytes made, const char *text, uint64_t number, int width) {
    if (text != NULL) put_text(&made, text);
    put(&made, number, width);
    return made;
}

static void expect_line(struct client_exports *client, const char *what, struct cell_client_line wanted) {
    struct cell_client_line found;
    memset(&found, 0xff, sizeof found);
    cell_client_line(client, 0, &found);
    same(what, &found, sizeof found, &wanted, sizeof wanted);
    cell_client_line(client, 1, &found);
    expect(what, found.what, CELL_CLIENT_NO_LINE);
}

/* The call was sent, and is refused as 7. */
static void expect_call(struct client_exports *client, const char *what, uint32_t code, struct bytes wanted, uint64_t number) {
    uint8_t room[512];
    size_t length = 0;
    expect(what, code, CELL_CLIENT_SEND);
    cell_client_message(client, room, sizeof room, &length);
    same(what, room, length, wanted.at, wanted.count);
    struct bytes refused = reply(number, 7);
    put(&refused, 6, 1);
    expect(what, give(client, 1010, refused), CELL_CLIENT_DONE);
    expect_line(client, what, (struct cell_client_line){.what = CELL_CLIENT_REFUSED, .fault = 7, .call = number});
}

static const uint8_t *text(const char *it) { return (const uint8_t *)it; }

static uint32_t open_as(struct client_exports *client, const char *name, struct cell_client_opening opening) {
    return cell_client_open_node(client, 1010, text(name), strlen(name), &opening, text("hi"), 2);
}

static void opens_by_parts(struct client_exports *client) {
    struct {
        const char *what, *name;
        struct cell_client_opening opening;
        uint32_t code;
    } refused[] = {
        {"no mode", "/ls/c/f", {0}, CELL_CLIENT_BAD_NUMBER},
        {"another mode", "/ls/c/f", {.mode = 8}, CELL_CLIENT_BAD_NUMBER},
        {"other events", "/ls/c/f", {.mode = 7, .events = 16}, CELL_CLIENT_BAD_NUMBER},
        {"another making", "/ls/c/f", {.mode = 1, .create = 3}, CELL_CLIENT_BAD_KIND},
        {"another kind", "/ls/c/f", {.mode = 1, .create = 1, .kind = 2}, CELL_CLIENT_BAD_KIND},
        {"another life", "/ls/c/f", {.mode = 1, .create = 1, .life = 2}, CELL_CLIENT_BAD_KIND},
        {"no name", "/ls//f", {.mode = 1}, CELL_CLIENT_BAD_TEXT},
        {"no UTF-8", "/ls/c/\xff", {.mode = 1}, CELL_CLIENT_BAD_TEXT},
        {"the mode before the name", "f", {.mode = 0}, CELL_CLIENT_BAD_NUMBER},
    };
    for (size_t i = 0; i < sizeof refused / sizeof *refused; i++)
        expect(refused[i].what, open_as(client, refused[i].name, refused[i].opening), refused[i].code);
    expect_call(client, "a plain Open", open_as(client, "/ls/c/f", (struct cell_client_opening){.mode = 1, .kind = 9, .life = 9}), open_call("/ls/c/f"), 1);
    struct bytes file = head(2, 2), directory = head(2, 3);
    put(&file, 0, 1);
    put_text(&file, "/ls/c/f");
    put(&file, 0x03010000, 4); /* to read and to write; something, which may be there; a file */
    put_text(&file, "hi");
    put(&file, 0x0100, 2); /* ephemeral, the ACL names of its directory */
    put(&file, 258, 8);
    put(&file, 0x0500, 2); /* contents and the lock; no sequencer */
    struct cell_client_opening to_make = {.mode = 3, .events = 5, .create = 1, .life = 1, .lock_delay = 258};
    expect_call(client, "an Open of a file", open_as(client, "/ls/c/f", to_make), file, 2);
    put(&directory, 0, 1);
    put_text(&directory, "/ls/c/d");
    put(&directory, 0x040101010000, 6); /* to change ACL names; something new; a directory, permanent, with those of its own */
    put(&directory, 0, 8);
    put(&directory, 0, 2);
    struct cell_client_opening to_be_new = {.mode = 4, .create = 2, .kind = 1};
    expect_call(client, "an Open of a directory", open_as(client, "/ls/c/d", to_be_new), directory, 3);
}

static void calls_by_parts(struct client_exports *client) {
    uint64_t at = 1010;
    expect("an Open", open_as(client, "/ls/c/f", (struct cell_client_opening){.mode = 1}), CELL_CLIENT_SEND);
    expect("opened", give(client, at, opened(4)), CELL_CLIENT_DONE);
    expect_line(client, "opened", (struct cell_client_line){.what = CELL_CLIENT_OPENED, .call = 4, .handle = 1});
    expect("no such mode", cell_client_acquire(client, at, 1, 2), CELL_CLIENT_BAD_KIND);
    expect("no such mode to try", cell_client_try_acquire(client, at, 1, 2), CELL_CLIENT_BAD_KIND);
    expect("no such handle", cell_client_stat(client, at, 2), CELL_CLIENT_BAD_HANDLE);
    expect_call(client, "a Stat", cell_client_stat(client, at, 1), with(sent_call(3, 5), NULL, 0, 1), 5);
    expect_call(client, "a List", cell_client_list(client, at, 1), with(sent_call(4, 6), NULL, 0, 1), 6);
    expect_call(client, "a Set", cell_client_set(client, at, 1, text("hi"), 2, 0), with(sent_call(5, 7), "hi", 0, 2), 7);
    struct bytes present = with(with(sent_call(5, 8), "", 1, 1), NULL, 9, 8);
    expect_call(client, "a Set of a generation", cell_client_set(client, at, 1, text(""), 0, 9), with(present, NULL, 0, 1), 8);
    expect_call(client, "a Delete", cell_client_delete(client, at, 1), with(sent_call(7, 9), NULL, 0, 1), 9);
    expect_call(client, "an Acquire", cell_client_acquire(client, at, 1, CELL_CLIENT_EXCLUSIVE), with(sent_call(8, 10), NULL, 0, 2), 10);
    expect_call(client, "a shared Acquire", cell_client_acquire(client, at, 1, CELL_CLIENT_SHARED), with(sent_call(8, 11), NULL, 0x0100, 2), 11);
    expect_call(client, "a TryAcquire", cell_client_try_acquire(client, at, 1, CELL_CLIENT_SHARED), with(sent_call(9, 12), NULL, 0x0100, 2), 12);
    expect_call(client, "a Release", cell_client_release(client, at, 1), with(sent_call(10, 13), NULL, 0, 1), 13);
    expect_call(client, "a GetSequencer", cell_client_get_sequencer(client, at, 1), with(sent_call(11, 14), NULL, 0, 1), 14);
    struct bytes under = with(sent_call(12, 15), NULL, 1, 1), check = head(2, 16), leave = head(2, 17);
    put_text(&under, "s");
    expect_call(client, "a SetSequencer", cell_client_set_sequencer(client, at, 1, text("s"), 1), under, 15);
    put(&check, 13, 1);
    expect_call(client, "a CheckSequencer", cell_client_check_sequencer(client, at, text("s"), 1), with(check, "s", 0, 1), 16);
    expect("a Close of a shared handle", cell_client_close_handle(client, at, 1), CELL_CLIENT_DONE);
    expect_line(client, "closed", (struct cell_client_line){.what = CELL_CLIENT_CLOSED});
    put(&leave, 0x0e00, 2);
    expect_call(client, "a Leave", cell_client_leave(client, at), leave, 17);
    expect("a call after a Leave", cell_client_stat(client, at, 1), CELL_CLIENT_NO_SESSION);
}

/* What replies tell, on handle 1 of a client whose last call was of the number 1. */
static void lines_in_parts(struct client_exports *client) {
    uint8_t room[8] = "........";
    struct bytes stat = reply(2, 3), sequencer = reply(4, 5);
    put(&stat, 1, 1); /* a directory */
    for (uint64_t number = 4; number < 8; number++) put(&stat, number, 8);
    for (int i = 0; i < 3; i++) put_text(&stat, "base");
    put(&stat, 1, 1); /* ephemeral */
    put(&stat, 70000, 8);
    put_text(&sequencer, "seq");
    cell_client_stat(client, 1010, 1);
    give(client, 1010, stat);
    struct cell_client_line stated = {
        .what = CELL_CLIENT_STATED, .call = 2, .instance = 4, .content_generation = 5, .acl_generation = 6, .lock_generation = 7,
        .length = 70000, .kind = CELL_CLIENT_A_DIRECTORY, .life = CELL_CLIENT_EPHEMERAL,
    };
    expect_line(client, "a stat", stated);
    expect("no bytes of a stat", cell_client_line_bytes(client, 0, room, 8), 0);
    cell_client_read(client, 1010, 1, room, 0, &(size_t){0});
    give(client, 1010, viewed(3, "hello"));
    struct cell_client_line seen = {
        .what = CELL_CLIENT_VIEWED, .call = 3, .instance = 4, .content_generation = 1, .acl_generation = 1, .length = 5,
        .kind = CELL_CLIENT_A_FILE, .life = CELL_CLIENT_PERMANENT,
    };
    expect_line(client, "a view", seen);
    same("its bytes", room, cell_client_line_bytes(client, 0, room, 8), "hello", 5);
    expect("no bytes after the last line", cell_client_line_bytes(client, 1, room, 8), 0);
    cell_client_read(client, 1010, 1, room, 0, &(size_t){0});
    seen.what = CELL_CLIENT_SEEN;
    seen.call = 0;
    expect_line(client, "a view of the cache", seen);
    expect("its bytes", cell_client_line_bytes(client, 0, room, 4), 5);
    same("the room stays", room, 8, "hello...", 8);
    cell_client_get_sequencer(client, 1010, 1);
    give(client, 1010, sequencer);
    expect_line(client, "a sequencer", (struct cell_client_line){.what = CELL_CLIENT_SEQUENCER, .call = 4, .length = 3});
    same("its bytes", room, cell_client_line_bytes(client, 0, room, 8), "seq", 3);
    cell_client_release(client, 1010, 1);
    give(client, 1010, reply(5, 6));
    expect_line(client, "done", (struct cell_client_line){.what = CELL_CLIENT_OKAY, .call = 5});
    cell_client_poison(client, 1010, 1);
    expect_line(client, "a poisoned handle", (struct cell_client_line){.what = CELL_CLIENT_HANDLE_POISONED});
    cell_client_beat(client, 12294);
    expect_line(client, "jeopardy", (struct cell_client_line){.what = CELL_CLIENT_JEOPARDY});
    struct bytes alive = head(1, 2);
    put(&alive, 12000, 8);
    put(&alive, 0, 8); /* no invalidations, and no events */
    give(client, 12295, alive);
    expect_line(client, "safe", (struct cell_client_line){.what = CELL_CLIENT_SAFE});
}

/* ---- ACL names, the names of a line, events and refusals by parts */

static uint32_t open_under(struct client_exports *client, const char *name, struct cell_client_opening opening, const char *read, const char *change) {
    return cell_client_open_under(client, 1010, text(name), strlen(name), &opening, text(""), 0, text(read), strlen(read), text("write"), 5,
                                  text(change), strlen(change));
}

static uint32_t set_acl(struct client_exports *client, uint64_t handle, const char *write, uint64_t generation) {
    return cell_client_set_acl(client, 1010, handle, text("read"), 4, text(write), strlen(write), text("change"), 6, generation);
}

static void acls_by_parts(struct client_exports *client) {
    struct cell_client_opening plain = {.mode = 1}, making = {.mode = 1, .create = 2, .kind = 1};
    expect("no ACL name to read", open_under(client, "/ls/c/d", making, "", "c"), CELL_CLIENT_BAD_TEXT);
    expect("no ACL name to change", open_under(client, "/ls/c/d", making, "r", "a/b"), CELL_CLIENT_BAD_TEXT);
    expect("no ACL name where nothing is made", open_under(client, "/ls/c/d", plain, "\xff", "c"), CELL_CLIENT_BAD_TEXT);
    expect("no mode, and no ACL name", open_under(client, "/ls/c/d", (struct cell_client_opening){0}, "", "c"), CELL_CLIENT_BAD_NUMBER);
    expect("no such kind, and no ACL name", open_under(client, "/ls/c/d", (struct cell_client_opening){.mode = 1, .create = 3}, "", "c"), CELL_CLIENT_BAD_KIND);
    struct bytes directory = head(2, 1), named = sent_call(6, 4), present = sent_call(6, 5);
    put(&directory, 0, 1);
    put_text(&directory, "/ls/c/d");
    put(&directory, 0x010101010001, 6); /* to read; something new; a directory, permanent; with ACL names */
    put_text(&directory, "r");
    put_text(&directory, "write");
    put_text(&directory, "c");
    put(&directory, 0, 8);
    put(&directory, 0, 2);
    expect_call(client, "an Open under ACL names", open_under(client, "/ls/c/d", making, "r", "c"), directory, 1);
    struct bytes nothing = open_call("/ls/c/d");
    nothing.at[25] = 2;
    expect_call(client, "ACL names where nothing is made", open_under(client, "/ls/c/d", plain, "r", "c"), nothing, 2);
    expect("an Open", open_as(client, "/ls/c/f", (struct cell_client_opening){.mode = 4}), CELL_CLIENT_SEND);
    expect("opened", give(client, 1010, opened(3)), CELL_CLIENT_DONE);
    expect("no ACL name to write", set_acl(client, 1, "..", 0), CELL_CLIENT_BAD_TEXT);
    expect("no such handle", set_acl(client, 2, "write", 0), CELL_CLIENT_BAD_HANDLE);
    for (struct bytes *made = &named; made != NULL; made = made == &named ? &present : NULL) {
        put_text(made, "read");
        put_text(made, "write");
        put_text(made, "change");
    }
    expect_call(client, "a SetAcl", set_acl(client, 1, "write", 0), with(named, NULL, 0, 2), 4);
    present = with(with(present, NULL, 1, 1), NULL, 9, 8);
    expect_call(client, "a SetAcl of a generation", set_acl(client, 1, "write", 9), with(present, NULL, 0, 1), 5);
}

/* The names that the line at the first place shows; NULL for none. */
static void expect_names(struct client_exports *client, const char *what, const char *child, const char *acl, const char *name) {
    uint8_t room[512];
    static const char *const others[] = {"", "own", "base"};
    const char *wanted[] = {child ? child : "", acl ? acl : "", acl ? others[1] : "", acl ? others[2] : "", name ? name : ""};
    same(what, room, cell_client_line_child(client, 0, 1, room, sizeof room), wanted[0], strlen(wanted[0]));
    same(what, room, cell_client_line_acl(client, 0, CELL_CLIENT_READ, room, sizeof room), wanted[1], strlen(wanted[1]));
    same(what, room, cell_client_line_acl(client, 0, CELL_CLIENT_WRITE, room, sizeof room), wanted[2], strlen(wanted[2]));
    same(what, room, cell_client_line_acl(client, 0, CELL_CLIENT_CHANGE_ACL, room, sizeof room), wanted[3], strlen(wanted[3]));
    same(what, room, cell_client_line_name(client, 0, room, sizeof room), wanted[4], strlen(wanted[4]));
    expect(what, cell_client_line_child(client, 0, 2, room, sizeof room), 0);
    expect(what, cell_client_line_acl(client, 0, 3, room, sizeof room), 0);
    expect(what, cell_client_line_child(client, 1, 0, room, sizeof room), 0);
    expect(what, cell_client_line_name(client, 1, room, sizeof room), 0);
}

/* A directory's view, which has two children, as the reply of this number to a read (2) or a ReadDir (4). */
static struct bytes listed(uint64_t number, int kind) {
    struct bytes made = reply(number, kind);
    put(&made, 1, 1); /* a directory */
    put(&made, 4, 8);
    put(&made, 0, 8);
    put(&made, 1, 8);
    put_text(&made, "acl");
    put_text(&made, "own");
    put_text(&made, "base");
    put(&made, 0, 5); /* permanent, without content */
    put(&made, 2, 4);
    put_text(&made, "acl");
    put_text(&made, "motd");
    return made;
}

static void names_by_parts(struct client_exports *client) {
    uint8_t room[8] = "........";
    struct cell_client_line seen = {
        .what = CELL_CLIENT_SEEN, .instance = 4, .acl_generation = 1, .kind = CELL_CLIENT_A_DIRECTORY, .children = 2,
    };
    expect("a List", cell_client_list(client, 1010, 1), CELL_CLIENT_SEND);
    expect_names(client, "no names", NULL, NULL, NULL);
    give(client, 1010, listed(2, 4));
    expect_line(client, "a listing", (struct cell_client_line){.what = CELL_CLIENT_NAMES, .call = 2, .children = 2});
    expect_names(client, "names of a listing", "motd", NULL, NULL);
    same("the first child", room, cell_client_line_child(client, 0, 0, room, 8), "acl", 3);
    expect("a child without room", cell_client_line_child(client, 0, 1, room, 3), 4);
    same("the room stays", room, 8, "acl.....", 8);
    expect("a List", cell_client_list(client, 1010, 1), CELL_CLIENT_SERVED);
    expect_line(client, "a listing of the cache", seen);
    expect_names(client, "names of a listing of the cache", "motd", "acl", "/ls/c/f");
    struct bytes stat = reply(3, 3);
    put(&stat, 0, 1);
    for (uint64_t number = 4; number < 8; number++) put(&stat, number, 8);
    put_text(&stat, "acl");
    put_text(&stat, "own");
    put_text(&stat, "base");
    put(&stat, 0, 1);
    put(&stat, 0, 8);
    cell_client_stat(client, 1010, 1);
    give(client, 1010, stat);
    expect_names(client, "names of a stat", NULL, "acl", NULL);
    expect("a handle to write", open_as(client, "/ls/c/d", (struct cell_client_opening){.mode = 3}), CELL_CLIENT_SEND);
    give(client, 1010, opened(4));
    cell_client_read(client, 1010, 2, room, 0, &(size_t){0});
    give(client, 1010, listed(5, 2));
    seen.what = CELL_CLIENT_VIEWED;
    seen.call = 5;
    expect_line(client, "a view of a directory", seen);
    expect_names(client, "names of a view", "motd", "acl", NULL);
}

/* An Alive that answers the Beat of this number, with its event: number - 1, the kind, so many words, and a name where there is one. */
static void event(struct client_exports *client, uint64_t number, int kind, int words, const char *name, struct cell_client_line wanted) {
    struct bytes alive = head(1, number);
    expect("a beat", cell_client_beat(client, 1010), CELL_CLIENT_SEND);
    put(&alive, 12000, 8);
    put(&alive, 0, 4);
    put(&alive, 1, 4);
    put(&alive, number - 1, 8);
    put(&alive, (uint64_t)kind, 1);
    for (int word = 1; word <= words; word++) put(&alive, (uint64_t)word, 8);
    if (name != NULL) put_text(&alive, name);
    expect("an event", give(client, 1010, alive), CELL_CLIENT_DONE);
    wanted.what = CELL_CLIENT_EVENT;
    expect_line(client, "an event", wanted);
    expect_names(client, "names of an event", NULL, NULL, name);
}

static void events_by_parts(struct client_exports *client) {
    event(client, 2, 0, 0, NULL, (struct cell_client_line){.event = CELL_CLIENT_FAIL_OVER});
    event(client, 3, 1, 3, NULL, (struct cell_client_line){.event = CELL_CLIENT_CONTENTS_SET, .opened = 1, .instance = 2, .content_generation = 3});
    event(client, 4, 2, 1, "/ls/c/f/a", (struct cell_client_line){.event = CELL_CLIENT_CHILD_ADDED, .opened = 1});
    event(client, 5, 3, 1, "/ls/c/f/a", (struct cell_client_line){.event = CELL_CLIENT_CHILD_REMOVED, .opened = 1});
    event(client, 6, 4, 1, "/ls/c/f/a", (struct cell_client_line){.event = CELL_CLIENT_CHILD_MODIFIED, .opened = 1});
    event(client, 7, 5, 1, NULL, (struct cell_client_line){.event = CELL_CLIENT_INVALID, .opened = 1});
    event(client, 8, 6, 1, NULL, (struct cell_client_line){.event = CELL_CLIENT_LOCK_TAKEN, .opened = 1});
    event(client, 9, 7, 1, NULL, (struct cell_client_line){.event = CELL_CLIENT_LOCK_WANTED, .opened = 1});
    event(client, 10, 8, 0, NULL, (struct cell_client_line){.event = CELL_CLIENT_EVENTS_LOST});
}

/* What stands after the number of a refusal, so wide, and what the line says of it. */
static void refusals_by_parts(struct client_exports *client) {
    static const struct {
        uint32_t fault;
        uint64_t bytes;
        int width;
        uint64_t argument;
    } rows[] = {
        {6, 0, 0, 0}, {8, 0, 1, CELL_CLIENT_A_FILE}, {8, 1, 1, CELL_CLIENT_A_DIRECTORY}, {10, 0, 1, CELL_CLIENT_READ},
        {10, 1, 1, CELL_CLIENT_WRITE}, {10, 2, 1, CELL_CLIENT_CHANGE_ACL}, {11, 7, 8, 7}, {20, 3, 8, 3}, {23, 0, 1, CELL_CLIENT_EXCLUSIVE},
        {23, 1, 1, CELL_CLIENT_SHARED}, {24, 60000, 8, 60000}, {28, 2, 8, 2}, {41, 5, 8, 5}, {42, 6, 8, 6}, {43, 7, 8, 7},
    };
    for (uint64_t i = 0; i < sizeof rows / sizeof *rows; i++) {
        struct bytes refused = with(reply(i + 2, 7), NULL, rows[i].fault - 1, 1);
        put(&refused, rows[i].bytes, rows[i].width);
        expect("a Release", cell_client_release(client, 1010, 1), CELL_CLIENT_SEND);
        expect("a refusal", give(client, 1010, refused), CELL_CLIENT_DONE);
        struct cell_client_line wanted = {.what = CELL_CLIENT_REFUSED, .fault = rows[i].fault, .call = i + 2, .argument = rows[i].argument};
        expect_line(client, "a refusal", wanted);
    }
}

static struct client_exports with_session(void) {
    struct client_exports client = {0};
    cell_client_open(1, text("ann"), 3, &client.at);
    cell_client_beat(&client, 1000);
    give(&client, 1005, started(1, 12000));
    return client;
}

static void by_parts(void) {
    struct client_exports client = with_session();
    expect_line(&client, "no line", (struct cell_client_line){0});
    opens_by_parts(&client);
    calls_by_parts(&client);
    cell_client_close(client);
    client = with_session();
    open_as(&client, "/ls/c/f", (struct cell_client_opening){.mode = 1});
    give(&client, 1010, opened(1));
    lines_in_parts(&client);
    cell_client_close(client);
    client = with_session();
    acls_by_parts(&client);
    cell_client_close(client);
    void (*const each[])(struct client_exports *) = {names_by_parts, events_by_parts, refusals_by_parts};
    for (size_t i = 0; i < sizeof each / sizeof *each; i++) {
        client = with_session();
        open_as(&client, "/ls/c/f", (struct cell_client_opening){.mode = 1});
        give(&client, 1010, opened(1));
        each[i](&client);
        cell_client_close(client);
    }
}

int main(void) {
    struct client_exports client = {0};
    opens();
    by_parts();
    expect("open", cell_client_open(1, (const uint8_t *)"ann", 3, &client.at), CELL_CLIENT_DONE);
    begins(&client);
    reads(&client);
    serves(&client);
    cell_client_close(client);
    return wrong == 0 ? 0 : 1;
}
