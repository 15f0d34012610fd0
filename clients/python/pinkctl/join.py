"""Joining servers that know only themselves: into a new cluster, or into the one whose lost machine they replace.

Each step is done only where it is not done yet, so all of this may be run again, and on several machines at once.
"""

from typing import Any, Callable, Optional

from .members import Cluster, Member, shares
from .nodes import Node, Refused, Seen
from .status import Exit, ToolError
from .waiting import wait_until


def join(it: Cluster, nodes: dict[int, Node]) -> None:
    """Makes one cluster of all servers."""
    give_slots(it, nodes)
    first = next(iter(nodes.values()))
    for node in nodes.values():
        if node is not first:
            first.do("CLUSTER", "MEET", node.host, node.port)
    wait_until("the servers do not find each other", lambda: all(len(known(node)) == len(nodes) for node in nodes.values()))
    follow_families(it, nodes)


def give_slots(it: Cluster, nodes: dict[int, Node]) -> None:
    """Each primary gets its share, and each server an epoch of its own."""
    share = shares(it.members, it.facts.get("voter"))
    for number, (port, node) in enumerate(nodes.items()):
        if port in share and not own_line(node).slots:
            do_once(node, lambda node=node: bool(own_line(node).slots), "CLUSTER", "ADDSLOTSRANGE", *share[port])  # type: ignore[misc]
        if len(node.seen()) == 1 and not has_epoch(node):
            do_once(node, lambda node=node: has_epoch(node), "CLUSTER", "SET-CONFIG-EPOCH", number + 1)  # type: ignore[misc]


def do_once(node: Node, is_done: Callable[[], bool], *words: Any) -> None:
    """A request that may be refused if another start has just done it."""
    try:
        node.do(*words)
    except Refused:
        if not is_done():
            raise


def has_epoch(node: Node) -> bool:
    return b"cluster_my_epoch:0\r" not in node.do("CLUSTER", "INFO")


def own_line(node: Node) -> Seen:
    return next(it for it in node.seen() if "myself" in it.flags)


def known(node: Node) -> list[Seen]:
    return [it for it in node.seen() if "handshake" not in it.flags and ("myself" in it.flags or it.is_linked)]


def is_alone(node: Node) -> bool:
    return len(node.seen()) == 1


def follow_families(it: Cluster, nodes: dict[int, Node]) -> None:
    """Each server without slots becomes a replica of who has those that it was made for, if another one has them."""
    for member in it.members:
        node = nodes.get(member.port)
        if node is None or own_line(node).primary or own_line(node).slots:
            continue
        primary = primary_of(it, member, nodes)
        if primary is not None:
            id_ = primary.id()
            wait_until(f"the server at {node.place} does not find {primary.place}", lambda node=node, id_=id_: any(seen.id == id_ for seen in known(node)))  # type: ignore[misc]
            node.do("CLUSTER", "REPLICATE", id_)


def primary_of(it: Cluster, member: Member, nodes: dict[int, Node]) -> Optional[Node]:
    """Another server of its family that is a primary with slots."""
    for other in it.members:
        node = nodes.get(other.port)
        if node is not None and other.family() == member.family() and other.port != member.port and own_line(node).slots:
            return node
    return None


# Several machines.


def join_machines(it: Cluster, nodes: dict[int, Node]) -> bool:
    """Joins what answers, of all machines; False if there is no cluster yet and servers are missing."""
    alone = [node for node in nodes.values() if is_alone(node)]
    if len(alone) == len(nodes):
        if len(nodes) < len(it.members):
            return False
        need_same_room(nodes)
        join(it, nodes)
        return True
    for node in alone:
        enter(node, [other for other in nodes.values() if other not in alone])
    follow_families(it, nodes)
    return True


def need_same_room(nodes: dict[int, Node]) -> None:
    """Drives that differ were not made by the same words."""
    room = {node.place: node.info("pink_drive")["pink_report_limit"] for node in nodes.values()}
    if len(set(room.values())) > 1:
        told = ", ".join(f"{where} has {pages}" for where, pages in room.items())
        raise ToolError(f"the drives were not made by the same words: of pages for values {told}", Exit.DISAGREES)


def enter(node: Node, others: list[Node]) -> None:
    """A server that knows nobody enters the cluster of the others, which forget the one that it replaces."""
    id_ = node.id()
    wait_until(
        f"a server at port {node.port} is still there: a new machine takes the place of one that is lost",
        lambda: not any(seen.is_there() for other in others for seen in replaced(id_, node.port, other.seen())),
    )
    old = {other.port: replaced(id_, node.port, other.seen()) for other in others}
    for other in others:
        for lost in old[other.port]:
            if lost.slots:
                raise ToolError(without_successor(node, lost, other.seen()), Exit.REFUSED)
    for other in others:
        for lost in old[other.port]:
            other.do("CLUSTER", "FORGET", lost.id)
    others[0].do("CLUSTER", "MEET", node.host, node.port)
    wait_until(f"the others do not find {node.place}", lambda: all(any(seen.id == id_ for seen in known(other)) for other in others))


def replaced(id_: str, port: int, seen: list[Seen]) -> list[Seen]:
    """The servers that were at the port of a new one; they lose their address as soon as another sees the new one there."""
    return [it for it in seen if it.id != id_ and (it.port == port or "noaddr" in it.flags)]


def without_successor(node: Node, lost: Seen, seen: list[Seen]) -> str:
    """No replica took over: what to do first."""
    replicas = [it for it in seen if it.primary == lost.id and "fail" not in it.flags]
    front = f"the server that was at {node.place} still has its slots, and the new drive is empty"
    if not replicas:
        return f"{front}; no replica of it is there: its keys are lost unless its old folder is found"
    where = f"{replicas[0].host}:{replicas[0].port}"
    return f"{front}: wait until its replica takes over, or, with no majority, CLUSTER FAILOVER TAKEOVER at {where} once the old machine is off; then start again"
