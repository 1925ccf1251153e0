/*
 * Lists a directory: the names in it, each with the ACLs to read, to write, and to change ACLs. Arguments: the port of a server on this
 * machine, and the directory. With the name of a child and that of an ACL, that is first made the one by which the child is read; where
 * the child isn't there it is made, an empty file.
 */
#define _GNU_SOURCE
#include "cell.h"

/* A component of a name, with the bytes for its end. */
struct component {
    char text[65];
};

static struct component component(size_t length) {
    struct component made = {""};
    if (length > 64) fail("no component");
    memcpy(made.text, room, length);
    return made;
}

static const uint8_t *bytes(const struct component *it) { return (const uint8_t *)it->text; }

static uint64_t open_at(const char *directory, const char *child, struct cell_client_opening opening) {
    char name[600];
    int length = snprintf(name, sizeof name, "%s%s%s", directory, *child ? "/" : "", child);
    return done("open", cell_client_open_node(&client, now(), (const uint8_t *)name, (size_t)length, &opening, room, 0)).handle;
}

/* The ACLs of a node, in the order of their rights. */
static void acls_of(uint64_t node, struct component acls[3]) {
    done("stat", cell_client_stat(&client, now(), node));
    for (uint32_t i = 0; i < 3; i++) acls[i] = component(cell_client_line_acl(&client, ended_at, 1u << i, room, sizeof room));
}

static void is_read_by(const char *directory, const char *child, const char *read) {
    uint64_t node = open_at(directory, child, (struct cell_client_opening){.mode = CELL_CLIENT_READ | CELL_CLIENT_CHANGE_ACL, .create = CELL_CLIENT_MAY_MAKE});
    struct component acls[3];
    acls_of(node, acls);
    done("set ACL", cell_client_set_acl(&client, now(), node, (const uint8_t *)read, strlen(read), bytes(&acls[1]), strlen(acls[1].text),
                                        bytes(&acls[2]), strlen(acls[2].text), 0));
}

int main(int count, char **words) {
    if (count != 3 && count != 5) fail("usage: list PORT DIRECTORY [CHILD ACL]");
    begin(words[1]);
    if (count == 5) is_read_by(words[2], words[3], words[4]);
    struct cell_client_opening plain = {.mode = CELL_CLIENT_READ};
    size_t children = done("list", cell_client_list(&client, now(), open_at(words[2], "", plain))).children;
    struct component *names = calloc(children + 1, sizeof *names), acls[3];
    if (names == NULL) fail("no memory");
    for (size_t i = 0; i < children; i++) names[i] = component(cell_client_line_child(&client, ended_at, i, room, sizeof room));
    for (size_t i = 0; i < children; i++) {
        acls_of(open_at(words[2], names[i].text, plain), acls);
        printf("%s %s %s %s\n", names[i].text, acls[0].text, acls[1].text, acls[2].text);
    }
    free(names);
    end();
    return 0;
}
