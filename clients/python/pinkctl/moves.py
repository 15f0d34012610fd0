"""cluster move-slots: gives slots with their keys to another primary.

The way of redis-cli does not work, as the keys are not in the server's own table. So, slot by slot: the writes of the source are
paused, the keys are copied, the target's replicas have them, the slot is given away at the source and then taken at the target
with a newer epoch, the pause ends, and the copies at the source are deleted. Reads go on, and writers wait and then follow MOVED.

A file in the folder of the cluster says what is to be moved, from before the first step until after the last. A second
run ends what a first began: it looks at who has a slot, and goes on from there.
"""

import argparse
import json
import os
import time
from typing import Any

from .members import Cluster, cluster_of
from .nodes import SLOTS, Node, owner
from .status import Exit, ToolError

PAUSE_SECONDS = 6.0
"""A pause that nobody ends is over after this."""
GIVE_SECONDS = 3.0
"""A slot whose keys took longer to copy is not given away."""
KNOWN_SECONDS = 60.0
"""How long the others may take to hear who has a slot; they are told at once."""


class Move:
    """The state of a move, in a file."""

    def __init__(self, folder: str) -> None:
        self.path = os.path.join(folder, "move.json")
        self.facts: dict[str, Any] = {}
        if os.path.exists(self.path):
            with open(self.path) as file:
                self.facts = json.load(file)

    def write(self, source: int, target: int, slots: list[int]) -> None:
        self.facts = {"source": source, "target": target, "slots": slots}
        with open(self.path + ".new", "w") as file:
            json.dump(self.facts, file)
            file.flush()
            os.fsync(file.fileno())
        os.replace(self.path + ".new", self.path)

    def end(self) -> None:
        os.unlink(self.path)


def keys_in(node: Node, slot: int) -> list[bytes]:
    return node.do("CLUSTER", "GETKEYSINSLOT", slot, 1 << 30)


def delete_keys(node: Node, slot: int) -> int:
    """Deletes the keys of a slot that this server does not have any more, or not yet."""
    keys = keys_in(node, slot)
    node.many([("PINK.RAW", "DEL", key) for key in keys])
    return len(keys)


def has_slot(node: Node, slot: int, id_: str) -> bool:
    """Whether, as this server knows, that one has the slot."""
    found = owner(node.seen(), slot)
    return found is not None and found.id == id_


def wait_for_replicas(node: Node) -> None:
    """All replicas that follow have what was done."""
    follow = int(node.info("replication")["connected_slaves"])
    if follow and node.do("WAIT", follow, 5000) < follow:
        raise ToolError(f"the replicas of {node.place} do not follow", Exit.PROGRAM)


def copy_keys(source: Node, target: Node, slot: int) -> int:
    """Copies the keys of a slot, in place of what a move that was broken off has left."""
    delete_keys(target, slot)
    keys = keys_in(source, slot)
    values = source.many([("PINK.VALUE", key) for key in keys])
    target.many([("PINK.RAW", "SET", key, value) for key, value in zip(keys, values) if value is not None])
    wait_for_replicas(target)
    return len(keys)


def take(target: Node, slot: int, ids: tuple[str, str]) -> None:
    """The target has the slot, with an epoch above that of the source, or the others would give it back."""
    if not has_slot(target, slot, ids[1]):
        target.do("PINK.TAKE", slot, *ids)


def wait_until_known(it: Cluster, target: Node, slots: list[int], id_: str) -> None:
    """All servers that answer know who has the slots. One that does not would give them back once the source has a newer epoch."""
    for port in [seen.port for seen in target.seen() if seen.is_there()]:
        last = time.monotonic() + KNOWN_SECONDS
        while not knows(it, port, slots, id_):
            if time.monotonic() > last:
                raise ToolError(f"the server at port {port} does not hear who has the slots: run it again", Exit.PROGRAM)
            time.sleep(0.05)


def knows(it: Cluster, port: int, slots: list[int], id_: str) -> bool:
    """Whether the server at a port knows who has the slots; one that does not answer hears of it when it is back."""
    try:
        with it.node(port, 5) as node:
            return any(seen.id == id_ and all(seen.has(slot) for slot in slots) for seen in node.seen())
    except ToolError:
        return True


def move_slot(source: Node, target: Node, slot: int, ids: tuple[str, str]) -> tuple[int, float]:
    """Moves a slot, or ends its move; how many keys, and how long writes were paused."""
    began, keys, given = time.monotonic(), 0, 0.0
    if has_slot(source, slot, ids[0]):
        if has_slot(target, slot, ids[1]):
            raise ToolError(f"both servers say that they have slot {slot}: run it again when they agree", Exit.DISAGREES)
        source.do("CLIENT", "PAUSE", int(1000 * PAUSE_SECONDS), "WRITE")
        try:
            keys = copy_keys(source, target, slot)
            if time.monotonic() - began > GIVE_SECONDS:
                raise ToolError(f"slot {slot} has too many keys: {len(keys_in(source, slot))} took more than {GIVE_SECONDS} s, it was not moved", Exit.REFUSED)
            source.do("CLUSTER", "SETSLOT", slot, "NODE", ids[1])
            take(target, slot, ids)
        finally:
            source.do("CLIENT", "UNPAUSE")
        given = time.monotonic() - began
    take(target, slot, ids)  # of a move that was broken off between the two
    source.do("CLIENT", "UNPAUSE")
    delete_keys(source, slot)
    return keys, given


def slots_of(words: list[str]) -> list[int]:
    """Slots, as 5 or 10-20."""
    found: list[int] = []
    for word in words:
        first, _, last = word.partition("-")
        if not first.isdigit() or (last and not last.isdigit()):
            raise ToolError(f"{word} is no slot: 5, or 10-20", Exit.USAGE)
        found += range(int(first), int(last or first) + 1)
    if not found or max(found) >= SLOTS:
        raise ToolError(f"slots are 0 to {SLOTS - 1}", Exit.USAGE)
    return found


def move_slots(args: argparse.Namespace) -> int:
    it, move = cluster_of(args.folder), Move(os.path.realpath(args.folder))
    if args.words and move.facts:
        raise ToolError(f"a move was broken off: pinkctl cluster move-slots {args.folder} without further words ends it", Exit.EXISTS)
    if not args.words and not move.facts:
        raise ToolError("no move was broken off: name the port of the source, that of the target, and slots", Exit.USAGE)
    if args.words:
        if len(args.words) < 3 or not all(it.isdigit() for it in args.words[:2]):
            raise ToolError("name the port of the source, that of the target, and slots", Exit.USAGE)
        begin(it, move, int(args.words[0]), int(args.words[1]), slots_of(args.words[2:]))
    return go_on(it, move)


def learn(it: Cluster, port: int) -> None:
    """Where the servers are now, as the first that answers says, of those of this machine at first."""
    for known in dict.fromkeys([*(member.port for member in it.own), port]):
        try:
            with it.node(known, 5) as node:
                return it.learn(node.seen())
        except ToolError:
            continue


def begin(it: Cluster, move: Move, source_port: int, target_port: int, slots: list[int]) -> None:
    learn(it, source_port)
    with it.node(source_port) as source, it.node(target_port) as target:
        for node in (source, target):
            if node.info("replication")["role"] != "master":
                raise ToolError(f"the server at {node.place} is no primary", Exit.USAGE)
        missing = [slot for slot in slots if not may_move(source, slot, (source.id(), target.id()))]
    if missing:
        raise ToolError(f"the server at {source.place} does not have slot {missing[0]}", Exit.USAGE)
    if source_port == target_port:
        raise ToolError("the source and the target are one server", Exit.USAGE)
    move.write(source_port, target_port, slots)


def may_move(source: Node, slot: int, ids: tuple[str, str]) -> bool:
    """Whether the source has the slot, or gave it to this target in a move whose machine was lost."""
    return has_slot(source, slot, ids[0]) or has_slot(source, slot, ids[1])


def primary_at(it: Cluster, port: int) -> Node:
    """The server at a port, or, if it has become a replica, its primary."""
    node = it.node(port)
    seen = node.seen()
    it.learn(seen)
    own = next(line for line in seen if "myself" in line.flags)
    if own.primary is None:
        return node
    node.close()
    return it.node(next(line.port for line in seen if line.id == own.primary))


def go_on(it: Cluster, move: Move) -> int:
    moved, longest = 0, 0.0
    learn(it, move.facts["source"])
    with primary_at(it, move.facts["source"]) as source, primary_at(it, move.facts["target"]) as target:
        ids = source.id(), target.id()
        for slot in move.facts["slots"]:
            keys, paused = move_slot(source, target, slot, ids)
            moved, longest = moved + keys, max(longest, paused)
        wait_until_known(it, target, move.facts["slots"], ids[1])
    move.end()
    print(f"{len(move.facts['slots'])} slots moved, {moved} keys; writes were paused for at most {1000 * longest:.0f} ms")
    return Exit.OK


def add_move_parser(words: "argparse._SubParsersAction[argparse.ArgumentParser]") -> None:
    parser = words.add_parser("move-slots", help="give slots with their keys to another primary; without further words: end a move that was broken off")
    parser.add_argument("folder", metavar="DIR")
    parser.add_argument("words", nargs="*", metavar="FROM TO SLOT..", help="two ports, and slots as 5 or 10-20")
    parser.set_defaults(run=move_slots)
