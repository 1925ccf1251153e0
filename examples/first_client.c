/* A client asks for a session, is given it, and keeps it. A program would send what is shown here, and read what it is answered. */
#include <inttypes.h>
#include <stdio.h>

#include "../include/cell_client.h"

/* The answer to its first message: a Started of client 1, epoch 1, number 1, with a lease of 12,000 ms. */
static const uint8_t started[] = {
    2, 0,
    0, 0, 0, 0, 0, 0, 0, 1,
    0, 0, 0, 0, 0, 0, 0, 1,
    0, 0, 0, 0, 0, 0, 0, 1,
    0, 0, 0, 0, 0, 0, 0x2e, 0xe0,
};

static int beat(struct client_exports *client, uint64_t now) {
    uint8_t room[256];
    size_t length = 0;
    if (cell_client_beat(client, now) != CELL_CLIENT_SEND) return 0;
    if (cell_client_message(client, room, sizeof room, &length) != CELL_CLIENT_DONE || length > sizeof room) return 0;
    printf("send ");
    for (size_t i = 0; i < length; i++) printf("%02x", room[i]);
    printf("\n");
    return 1;
}

int main(void) {
    struct client_exports client = {0};
    if (cell_client_open(1, (const uint8_t *)"ann", 3, &client.at) != CELL_CLIENT_DONE) return 1;
    int well = beat(&client, 1000) && cell_client_give(&client, 1005, started, sizeof started) == CELL_CLIENT_DONE;
    printf("leased until %" PRIu64 "\n", cell_client_leased_until(&client));
    well = well && beat(&client, 5000);
    cell_client_close(client);
    return well ? 0 : 1;
}
