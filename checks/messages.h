/* Bytes of messages, laid out by hand as docs/FORMATS.md says: numbers are big-endian. Each is of client 1 and epoch 1. */
#ifndef MESSAGES_H
#define MESSAGES_H

#include <stdint.h>
#include <string.h>

struct bytes {
    uint8_t at[512];
    size_t count;
};

static inline void put(struct bytes *to, uint64_t number, int count) {
    for (int i = count; i > 0; i--) to->at[to->count++] = (uint8_t)(number >> (8 * (i - 1)));
}

static inline void put_text(struct bytes *to, const char *text) {
    put(to, strlen(text), 4);
    memcpy(to->at + to->count, text, strlen(text));
    to->count += strlen(text);
}

/* The version, the kind, and client 1, epoch 1 and this number. */
static inline struct bytes head(int kind, uint64_t number) {
    struct bytes made = {{0}, 0};
    put(&made, 2, 1);
    put(&made, (uint64_t)kind, 1);
    put(&made, 1, 8);
    put(&made, 1, 8);
    put(&made, number, 8);
    return made;
}

/* A call on a handle, by its kind: the client puts what is its own. */
static inline struct bytes call_on(int kind, uint64_t handle, int width) {
    struct bytes made = head(2, 1);
    put(&made, (uint64_t)kind, 1);
    put(&made, (uint64_t)width, 4);
    put(&made, handle, width);
    return made;
}

static inline struct bytes open_call(const char *name) {
    struct bytes made = head(2, 1);
    put(&made, 0, 1);
    put_text(&made, name);
    put(&made, 1, 1); /* to read */
    put(&made, 0, 1); /* makes nothing */
    put(&made, 0, 8); /* no lock-delay */
    put(&made, 0, 1); /* no events */
    put(&made, 0, 1); /* no sequencer */
    return made;
}

static inline struct bytes started(uint64_t number, uint64_t span) {
    struct bytes made = head(0, number);
    put(&made, span, 8);
    return made;
}

/* A reply that may be kept: no invalidation was issued before. */
static inline struct bytes reply(uint64_t number, int kind) {
    struct bytes made = head(2, number);
    put(&made, 1, 1);
    put(&made, 0, 8);
    put(&made, (uint64_t)kind, 1);
    return made;
}

static inline struct bytes opened(uint64_t number) {
    struct bytes made = reply(number, 0);
    put_text(&made, "the master's handle");
    put(&made, 4, 8); /* instance */
    put(&made, 0, 1); /* permanent */
    return made;
}

static inline struct bytes viewed(uint64_t number, const char *content) {
    struct bytes made = reply(number, 2);
    put(&made, 0, 1); /* a file */
    put(&made, 4, 8);
    put(&made, 1, 8);
    put(&made, 1, 8);
    for (int i = 0; i < 3; i++) put_text(&made, "base");
    put(&made, 0, 1);
    put_text(&made, content);
    put(&made, 0, 4); /* no children */
    return made;
}

#endif
