"""What the lines that a run prints have to be, told from the lines and the steps alone: nothing here knows how a cell works inside.

A Run is handed each step with the lines that it printed. It keeps what the lines say: the map of names, the sessions, the locks, the
rights, what was asked for. Where a line can't be so it raises Broken, with the law by name."""

FILE, DIRECTORY = "file", "dir"


class Broken(Exception):
    """A law that a line breaks."""


def holds(law, so, why=""):
    if not so:
        raise Broken(f"{law}: {why}" if why else law)


def parent_of(name):
    return name.rsplit("/", 1)[0]


def last_of(name):
    return name.rsplit("/", 1)[1]


class Node:
    """A node as a view shows it, a directory without its children."""

    def __init__(self, words):
        self.kind, instance, contents, acls, *self.acl, self.life = words[:8]
        self.instance, self.contents, self.acls = int(instance), int(contents), int(acls)
        self.rest = words[8:] if self.kind == FILE else []

    def own(self):
        return [self.kind, str(self.instance), str(self.contents), str(self.acls), *self.acl, self.life]


def content_words(word):
    """How a view shows a content that a step has: its length, and its first 16 bytes."""
    if word.startswith("fill:"):
        _, count, byte = word.split(":")
        return [count, byte * min(int(count), 16) or "-"]
    digits = "" if word == "-" else word
    return [str(len(digits) // 2), digits[:32] or "-"]


class Map:
    """The names and their nodes, and each view that an instance ever had, with the moments from which it had it."""

    def __init__(self):
        self.nodes, self.views, self.instances, self.moment, self.last = {}, {}, {}, 0, 3
        acl = ["base"] * 3
        self.put("/ls/c", Node([DIRECTORY, "1", "0", "1", *acl, "permanent"]))
        self.put("/ls/c/acl", Node([DIRECTORY, "2", "0", "1", *acl, "permanent"]))
        self.put("/ls/c/acl/base", Node([FILE, "3", "1", "1", *acl, "permanent", "8", b"ann\nbob\n".hex()]))

    def children(self, name):
        return sorted(last_of(it) for it in self.nodes if it != "/ls/c" and parent_of(it) == name)

    def view(self, name):
        node = self.nodes[name]
        children = self.children(name)
        return " ".join(node.own() + (node.rest if node.kind == FILE else [str(len(children)), *children]))

    def note(self, name):
        if name in self.nodes:
            instance = self.nodes[name].instance
            self.views.setdefault(instance, []).append((self.moment, self.view(name)))
            self.instances.setdefault(name, set()).add(instance)

    def put(self, name, node):
        self.nodes[name] = node
        self.note(name)
        self.note(parent_of(name))

    def remove(self, name):
        del self.nodes[name]
        self.note(parent_of(name))

    def views_since(self, instance, moment):
        """The views that the instance had at the moment or after it."""
        had = self.views.get(instance, [])
        return [view for place, (_, view) in enumerate(had) if place + 1 == len(had) or had[place + 1][0] > moment]


class Lock:
    """Who holds a node's lock, as often as it does."""

    def __init__(self):
        self.holders, self.mode, self.generation, self.is_delayed = [], None, 0, False


class Call:
    """What a client was asked for."""

    def __init__(self, words, moment):
        self.words, self.moment, self.number, self.applied = words, moment, 0, 0


class Run:
    """What the lines of a run say so far."""

    def __init__(self):
        self.map, self.epoch, self.is_up = Map(), 0, False
        self.live, self.ended, self.lost, self.jeopardy = set(), set(), set(), set()
        self.locks, self.rights, self.granted = {}, {}, 0
        self.asked, self.outstanding, self.changes, self.handles, self.told, self.sent = None, {}, {}, {}, {}, {}
        self.counts, self.ending = {}, set()

    def step(self, step, lines):
        """Takes a step's lines in."""
        words = step.split(" ")
        self.asked = Call(words[2:], self.map.moment) if words[0] == "ask" else None
        self.ending = {int(it.split(" ")[1]) for it in lines if it.startswith("ended ")}
        for line in lines:
            self.map.moment += 1
            self.line(line.split(" "), words)
        if self.asked is not None and not any(it.startswith(("refused ", "served ", f"done {words[1]} 0 ")) for it in lines):
            self.is_sent(int(words[1]), self.asked)
        if words[0] == "cut":
            self.is_up = False

    def is_sent(self, client, call):
        """The client can't answer a call by itself. A leave takes the place of another call, which then has no answer."""
        before = self.outstanding.get(client)
        is_free = before is None or call.words[0] == "leave" != before.words[0]
        holds("a client has one call under way", is_free, " ".join(call.words))
        call.number = self.sent[client] = self.sent.get(client, 0) + 1
        self.outstanding[client] = call
        if call.words[0] in ("set", "delete", "acl") or len(call.words) > 3 and call.words[3] in ("may", "must"):
            self.changes[client, call.number] = call

    def line(self, words, step):
        kind = words[0]
        self.counts[kind] = self.counts.get(kind, 0) + 1
        read = getattr(self, f"read_{kind.replace('-', '_')}", None)
        holds("each line is one of those that SCRIPT has", read is not None, kind)
        if kind in ("started", "ended", "applied", "granted", "acked", "expired", "locked", "freed", "lapsed", "reopened", "recovered"):
            holds("only a master that is up changes anything", self.is_up, " ".join(step))
        read(*words[1:])

    # The master's own.

    def read_up(self, epoch):
        holds("epochs rise", int(epoch) > self.epoch and not self.is_up)
        self.epoch, self.is_up, self.rights, self.granted = int(epoch), True, {}, 0

    def read_down(self):
        self.is_up = False

    def read_recovered(self):
        pass

    # Sessions.

    def read_started(self, client):
        holds("a session begins once", int(client) not in self.live | self.ended, client)
        self.live.add(int(client))

    def read_ended(self, client):
        holds("only a live session ends", int(client) in self.live, client)
        held = [instance for instance, lock in self.locks.items() if int(client) in lock.holders]
        holds("a session's locks go before its end", not held, f"client {client}, instances {held}")
        self.live.discard(int(client))
        self.ended.add(int(client))

    # Changes of the map.

    def read_applied(self, client, number, what, name, *view):
        client, number, node = int(client), int(number), Node(list(view)) if view else None
        before = self.map.nodes.get(name)
        self.none_may_have(name, before is None or node is None)
        if client:
            self.is_asked_for(client, number, name, before, node)
        if node is None:
            self.goes(name, before, client)
        else:
            self.is_put(name, before, node, list(view), client)

    def is_asked_for(self, client, number, name, before, node):
        holds("only a client with a session changes anything", client in self.live, f"client {client}")
        call = self.changes.get((client, number))
        so = call is not None and self.is_of(client, call, name, before, node)
        holds("each change is one that its client was asked for", so, f"client {client}, call {number}, {name}")
        holds("no call takes effect twice", call.applied == 0, f"call {number} of client {client}")
        call.applied += 1

    def is_of(self, client, call, name, before, node):
        """Whether a call makes such a node of the one that was there."""
        word, first, *rest = call.words
        if word == "open":
            return first == name and before is None and node is not None and self.is_made(name, node, call.words)
        if self.handles.get((client, int(first))) != name or before is None or (node is None) != (word == "delete"):
            return False
        return node is None or self.is_changed(before, node, word, rest)

    def none_may_have(self, name, is_child_new):
        for number, (client, right) in self.rights.items():
            holds("a change waits for who may have cached it", right != name, f"right {number} of client {client} to {name}")
            if is_child_new:
                holds("a change waits for who may have cached its directory", right != parent_of(name), f"right {number} of client {client}")

    def goes(self, name, before, client):
        holds("what goes was there, and has no children", before is not None and not self.map.children(name), name)
        holds("only an ephemeral node goes by itself", client or before.life == "ephemeral", name)
        self.locks.pop(before.instance, None)
        self.map.remove(name)

    def is_put(self, name, before, node, view, client):
        holds("the cell itself puts nothing", client, name)
        if before is None:
            parent = self.map.nodes.get(parent_of(name))
            holds("a node's parent is a directory", parent is not None and parent.kind == DIRECTORY, name)
            holds("an instance is new", node.instance > self.map.last, f"{node.instance} after {self.map.last}")
            self.map.last = node.instance
        self.map.put(name, node)
        holds("a view is what the map says", self.map.view(name) == " ".join(view), name)

    def is_made(self, name, node, words):
        parent = self.map.nodes.get(parent_of(name))
        kind, life = words[4:6]
        acl = words[words.index("acl") + 1 :][:3] if "acl" in words else parent.acl if parent else None
        content = content_words(words[6]) if kind == FILE else []
        return [node.kind, node.life, node.acl, node.rest, node.acls] == [kind, life, acl, content, 1]

    @staticmethod
    def is_changed(before, node, word, rest):
        wanted = Node([*before.own(), *before.rest])
        if word == "set":
            wanted.contents, wanted.rest = before.contents + 1, content_words(rest[0])
        else:
            wanted.acls, wanted.acl = before.acls + 1, rest[:3]
        return word in ("set", "acl") and [wanted.own(), wanted.rest] == [node.own(), node.rest]

    # Rights to cache.

    def read_granted(self, number, client, name):
        holds("each right is granted once", int(number) == self.granted + 1, number)
        holds("only a client with a session gets a right", int(client) in self.live, client)
        self.granted = int(number)
        self.rights[int(number)] = (int(client), name)

    def read_acked(self, number):
        holds("a right ends once", self.rights.pop(int(number), None) is not None, number)

    read_expired = read_acked

    # Locks.

    def read_locked(self, client, instance, mode, generation):
        lock = self.locks.setdefault(int(instance), Lock())
        holds("only a client with a session gets a lock", int(client) in self.live, client)
        holds("a lock is of a node that is there", int(instance) in {it.instance for it in self.map.nodes.values()}, instance)
        holds("a lock that lapsed waits for its delay", not lock.is_delayed, instance)
        holds("an exclusive lock has one holder", not lock.holders or (mode, lock.mode) == ("s", "s"), instance)
        rises = int(generation) > lock.generation if not lock.holders else int(generation) == lock.generation
        holds("a lock that was free has a new generation", rises, f"{generation} after {lock.generation} of {instance}")
        lock.holders.append(int(client))
        lock.mode, lock.generation = mode, int(generation)

    def lets_go(self, client, instance):
        lock = self.locks.get(int(instance))
        holds("only a holder lets a lock go", lock is not None and int(client) in lock.holders, f"client {client} of {instance}")
        lock.holders.remove(int(client))
        if int(client) in self.ending:
            # (one line tells of all handles of a session that ends)
            lock.holders = [it for it in lock.holders if it != int(client)]
        return lock

    def read_freed(self, client, instance):
        self.lets_go(client, instance)

    def read_lapsed(self, client, instance):
        lock = self.lets_go(client, instance)
        lock.is_delayed = not lock.holders

    def read_reopened(self, instance):
        lock = self.locks.get(int(instance))
        holds("only a lock that lapsed is opened again", lock is not None and lock.is_delayed, instance)
        lock.is_delayed = False

    # What clients tell.

    def read_served(self, client, name, *view):
        client = int(client)
        holds("a client serves while it has a session", client in self.live and client not in self.lost, f"client {client}")
        holds("a client in jeopardy serves nothing", client not in self.jeopardy, f"client {client}")
        there = self.map.view(name) if name in self.map.nodes else "absent"
        holds("what a cache serves is what the rows hold", " ".join(view) == there, f"client {client}, {name}: {' '.join(view)}, not {there}")

    def read_done(self, client, number, result, *rest):
        client = int(client)
        call = self.asked if int(number) == 0 else self.outstanding.pop(client, None)
        holds("a call that ends was asked for", call is not None and call.number == int(number), f"call {number} of client {client}")
        check = getattr(self, f"ends_{result}", None)
        if check is not None:
            check(client, call, list(rest))

    def ends_refused(self, client, call, rest):
        # (of a poisoned call and of one whose outcome got lost nothing is known)
        if rest[0] in ("31", "32", "34"):
            return
        holds("a call that is refused has changed nothing", call.applied == 0, " ".join(call.words))
        self.changes.pop((client, call.number), None)

    def ends_ok(self, client, call, _):
        word = call.words[0]
        if word in ("set", "delete", "acl"):
            holds("a call that is done has taken effect", call.applied == 1, " ".join(call.words))

    def ends_opened(self, client, call, rest):
        self.handles[client, int(rest[0])] = call.words[1]

    def ends_view(self, client, call, rest):
        instance, contents = int(rest[1]), int(rest[2])
        holds("an answer is what the rows held since it was asked for", " ".join(rest) in self.map.views_since(instance, call.moment), " ".join(rest))
        told = [generation for moment, generation in self.told.get((client, instance), []) if moment <= call.moment]
        holds("no call shows less than an event told", contents >= max(told, default=0), " ".join(rest))

    def ends_names(self, client, call, rest):
        name = self.handles.get((client, int(call.words[1])))
        had = [view.split(" ")[9:] for it in self.map.instances.get(name, ()) for view in self.map.views_since(it, call.moment)]
        holds("a list is what the rows held since it was asked for", rest in had, f"{name}: {' '.join(rest)}")

    def read_event(self, client, kind, *rest):
        if kind == "contents":
            instance, contents = int(rest[1]), int(rest[2])
            had = {int(view.split(" ")[2]) for _, view in self.map.views.get(instance, [])}
            holds("an event tells of a content that was", contents in had, f"{contents} of {instance}")
            self.told.setdefault((int(client), instance), []).append((self.map.moment, contents))

    def read_jeopardy(self, client):
        self.jeopardy.add(int(client))

    def read_safe(self, client):
        self.jeopardy.discard(int(client))

    def read_lost(self, client):
        self.lost.add(int(client))
        self.jeopardy.discard(int(client))

    def read_refused(self, *_):
        pass
