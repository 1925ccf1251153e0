/*
 * Elects a primary among all who run this program: who holds a file's lock is the primary, and says so in the file. Arguments: the port
 * of a server on this machine, who this one is, and for how many seconds it stays.
 */
#define _GNU_SOURCE
#include "cell.h"

int main(int count, char **words) {
    const char *who = count == 4 ? words[2] : "";
    if (count != 4) fail("usage: elect PORT WHO SECONDS");
    begin(words[1]);

    /* The file is made where it isn't there, and goes with the last candidate. */
    struct cell_client_opening opening = {.mode = CELL_CLIENT_READ | CELL_CLIENT_WRITE, .create = CELL_CLIENT_MAY_MAKE, .life = CELL_CLIENT_EPHEMERAL};
    const char *name = "/ls/c/primary";
    uint64_t file = done("open", cell_client_open_node(&client, now(), (const uint8_t *)name, strlen(name), &opening, (const uint8_t *)"", 0)).handle;
    if (end_of(cell_client_try_acquire(&client, now(), file, CELL_CLIENT_EXCLUSIVE)).what == CELL_CLIENT_REFUSED) {
        size_t length = 0;
        done("read", cell_client_read(&client, now(), file, room, 0, &length));
        length = cell_client_content(&client, room, sizeof room);
        printf("%.*s is the primary\n", (int)length, (const char *)room);
        fflush(stdout);
        done("acquire", cell_client_acquire(&client, now(), file, CELL_CLIENT_EXCLUSIVE));
    }
    done("set", cell_client_set(&client, now(), file, (const uint8_t *)who, strlen(who), 0));
    done("sequencer", cell_client_get_sequencer(&client, now(), file));
    char number[40] = "";
    cell_client_fencing_number(room, cell_client_line_bytes(&client, ended_at, room, sizeof room), number);
    printf("%s is the primary, with the fencing number %s\n", who, number);
    fflush(stdout);
    for (uint64_t until = now() + 1000 * strtoull(words[3], NULL, 10); now() < until;) take(until - now() + 1);
    end();
    return 0;
}
