/* Hits of a client's cache through the library for C: 4,096 files of 64 bytes, each read by its handle in turn. Run by bench/run_hits.
 * Usage: library_hits read|hit HITS. `read` is a step, whose answer can be shown; `hit` is a look-up. */
#define _POSIX_C_SOURCE 200809L
#include <stdio.h>
#include <stdlib.h>
#include <time.h>

#include "../checks/messages.h"
#include "../include/cell_client.h"

#define FILES 4096

static void want(const char *what, uint32_t code, uint32_t wanted) {
    if (code == wanted) return;
    fprintf(stderr, "%s: %u, and not %u\n", what, code, wanted);
    exit(1);
}

static void give(struct client_exports *client, struct bytes message) {
    want("give", cell_client_give(client, 0, message.at, message.count), CELL_CLIENT_DONE);
}

/* All files stand in the cache, under a lease of 12 s at moment 0. */
static void fill(struct client_exports *client) {
    want("beat", cell_client_beat(client, 0), CELL_CLIENT_SEND);
    give(client, started(1, 12000));
    for (uint64_t k = 0; k < FILES; k++) {
        char name[32], content[65];
        size_t length;
        snprintf(name, sizeof name, "/ls/c/f%u", (unsigned)k);
        memset(content, 'a', 64);
        content[64] = 0;
        struct bytes call = open_call(name);
        want("open", cell_client_ask(client, 0, call.at, call.count), CELL_CLIENT_SEND);
        give(client, opened(2 * k + 1));
        want("read", cell_client_read(client, 0, k + 1, (uint8_t *)content, 0, &length), CELL_CLIENT_SEND);
        give(client, viewed(2 * k + 2, content));
    }
}

typedef uint32_t reads(struct client_exports *, uint64_t, uint64_t, uint8_t *, size_t, size_t *);

static uint64_t nanoseconds(clockid_t clock) {
    struct timespec now;
    clock_gettime(clock, &now);
    return (uint64_t)now.tv_sec * 1000000000 + (uint64_t)now.tv_nsec;
}

int main(int count, char **words) {
    if (count != 3) return 2;
    struct client_exports client = {0};
    reads *read = strcmp(words[1], "hit") == 0 ? cell_client_hit : cell_client_read;
    uint64_t hits = strtoull(words[2], NULL, 10), found = 0;
    want("open a client", cell_client_open(1, (const uint8_t *)"ann", 3, &client.at), CELL_CLIENT_DONE);
    fill(&client);
    uint64_t begun = nanoseconds(CLOCK_MONOTONIC), busy = nanoseconds(CLOCK_THREAD_CPUTIME_ID);
    for (uint64_t turn = 0; turn < hits; turn++) {
        uint8_t room[64];
        size_t length = 0;
        uint32_t code = read(&client, 0, turn % FILES + 1, room, sizeof room, &length);
        found += code == CELL_CLIENT_SERVED && length == 64 && room[63] == 'a';
    }
    uint64_t took = nanoseconds(CLOCK_MONOTONIC) - begun, some = hits > 0 ? hits : 1;
    busy = nanoseconds(CLOCK_THREAD_CPUTIME_ID) - busy;
    printf("found %llu, %llu ns each, %llu of a processor\n", (unsigned long long)found, (unsigned long long)(took / some),
           (unsigned long long)(busy / some));
    cell_client_close(client);
    return 0;
}
