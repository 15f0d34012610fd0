"""Waiting for the servers of a cluster."""

import time
from typing import Callable

from .nodes import Node
from .status import Exit, ToolError

START_SECONDS = 60


def wait_until(fault: str, holds: Callable[[], bool], seconds: float = START_SECONDS) -> None:
    last = time.monotonic() + seconds
    while not holds():
        if time.monotonic() > last:
            raise ToolError(fault, Exit.PROGRAM)
        time.sleep(0.1)


def follows(node: Node) -> bool:
    """Whether it is a primary, or a replica with a link to its primary."""
    told = node.info("replication")
    return told["role"] == "master" or told.get("master_link_status") == "up"
