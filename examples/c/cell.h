/* A client of the cell whose server is on this machine, by its port: its session, and how a call of it ends. */
#ifndef CELL_H
#define CELL_H

#include <arpa/inet.h>
#include <poll.h>
#include <stdio.h>
#include <stdlib.h>
#include <string.h>
#include <sys/socket.h>
#include <time.h>
#include <unistd.h>

#include "../../include/cell_client.h"

static struct client_exports client;
static int stream;
static uint8_t room[65536];

static void fail(const char *what) {
    fprintf(stderr, "%s\n", what);
    exit(1);
}

/* The clock of the client: it goes on while the machine sleeps. */
static uint64_t now(void) {
    struct timespec time;
    if (clock_gettime(CLOCK_BOOTTIME, &time) != 0) fail("no clock");
    return (uint64_t)time.tv_sec * 1000 + (uint64_t)time.tv_nsec / 1000000;
}

/* ---- blocks, each after its length */

static void put(const void *bytes, size_t count) {
    if (send(stream, bytes, count, MSG_NOSIGNAL) != (ssize_t)count) fail("the connection is lost");
}

static void put_block(const void *bytes, size_t count) {
    uint32_t length = htonl((uint32_t)count);
    put(&length, 4);
    put(bytes, count);
}

static size_t get_block(void) {
    uint32_t length;
    if (recv(stream, &length, 4, MSG_WAITALL) != 4) fail("the connection is lost");
    size_t count = ntohl(length);
    if (count > sizeof room || recv(stream, room, count, MSG_WAITALL) != (ssize_t)count) fail("no such block");
    return count;
}

/* A new client is given its number. */
static uint64_t greet(const char *principal) {
    struct __attribute__((packed)) { uint8_t version, is_again; uint32_t length; char principal[64]; } hello = {1, 0, htonl(strlen(principal)), ""};
    memcpy(hello.principal, principal, strlen(principal));
    put_block(&hello, 6 + strlen(principal));
    if (get_block() < 10 || room[1] != 0) fail("the server turns this client away");
    uint64_t number = 0;
    for (int i = 2; i < 10; i++) number = number << 8 | room[i];
    return number;
}

/* ---- the session */

static void send_shown(uint32_t (*shows)(struct client_exports *, uint8_t *, size_t, size_t *)) {
    size_t length = 0;
    if (shows(&client, room, sizeof room, &length) != CELL_CLIENT_DONE || length > sizeof room) fail("no room for a message");
    if (length > 0) put_block(room, length);
}

static void beat(void) {
    if (cell_client_beat(&client, now()) == CELL_CLIENT_SEND) send_shown(cell_client_message);
}

/* How a call ended that the last step told of, if one did, or what the cache served; and at which place that line stands. */
static size_t ended_at;

static struct cell_client_line ended(void) {
    struct cell_client_line line, found = {0};
    for (size_t place = 0; cell_client_line(&client, place, &line), line.what != CELL_CLIENT_NO_LINE; place++) {
        if (line.what == CELL_CLIENT_LOST) fail("the session is lost");
        if (line.what > CELL_CLIENT_SEEN) continue;
        found = line;
        ended_at = place;
    }
    return found;
}

/* Takes what comes next, at most for so many milliseconds, and beats when it is time. */
static struct cell_client_line take(uint64_t patience) {
    uint64_t until = cell_client_leased_until(&client), at = now();
    uint64_t left = until > at ? until - at : 200;
    struct pollfd polled = {.fd = stream, .events = POLLIN};
    if (poll(&polled, 1, (int)(left < patience ? left : patience)) == 0) {
        if (left <= patience) {
            beat();
            send_shown(cell_client_again);
        }
        return (struct cell_client_line){0};
    }
    size_t length = get_block();
    if (cell_client_give(&client, now(), room, length) != CELL_CLIENT_DONE) return (struct cell_client_line){0};
    struct cell_client_line end = ended();
    if (cell_client_leased_until(&client) != until) beat();
    return end;
}

/* How the call ended that was asked for so. */
static struct cell_client_line end_of(uint32_t code) {
    if (code == CELL_CLIENT_DONE || code == CELL_CLIENT_SERVED) return ended();
    if (code != CELL_CLIENT_SEND) return (struct cell_client_line){.what = CELL_CLIENT_REFUSED, .fault = code};
    send_shown(cell_client_message);
    struct cell_client_line end = take(1000);
    while (end.what == CELL_CLIENT_NO_LINE) end = take(1000);
    return end;
}

static struct cell_client_line done(const char *what, uint32_t code) {
    struct cell_client_line end = end_of(code);
    if (end.what == CELL_CLIENT_REFUSED) fail(what);
    return end;
}

/* Connects to the server, and begins a session for ann. */
static void begin(const char *port) {
    struct sockaddr_in server = {.sin_family = AF_INET, .sin_port = htons((uint16_t)atoi(port)), .sin_addr.s_addr = htonl(INADDR_LOOPBACK)};
    stream = socket(AF_INET, SOCK_STREAM, 0);
    if (connect(stream, (struct sockaddr *)&server, sizeof server) != 0) fail("no server there");
    if (cell_client_open(greet("ann"), (const uint8_t *)"ann", 3, &client.at) != CELL_CLIENT_DONE) fail("no client");
    for (beat(); cell_client_leased_until(&client) == 0;) take(1000);
}

/* Ends it. */
static void end(void) {
    done("leave", cell_client_leave(&client, now()));
    cell_client_close(client);
}

#endif
