"""Runs `pinkctl cluster move-slots` with these words, and kills a process before its Nth step; bench/cluster.py uses it.

    bench/broken_move.py N VICTIM DIR [FROM TO SLOT..]

A step is a request to a server, or a change of the file that says what is moved. VICTIM is the number of a process, or 0 for the
tool itself. The last line says how many steps there were.
"""

import os
import signal
import sys

sys.path.insert(0, os.path.join(os.path.dirname(os.path.dirname(os.path.realpath(__file__))), 'clients', 'python'))

from pinkctl.__main__ import main  # noqa: E402
from pinkctl.moves import Move  # noqa: E402
from pinkctl.nodes import Node  # noqa: E402

at, victim, steps = int(sys.argv[1]), int(sys.argv[2]) or os.getpid(), 0


def counted(function):
    """The function, with a step before it."""

    def stepped(*words):
        global steps
        steps += 1
        if steps == at:
            os.kill(victim, signal.SIGKILL)
        return function(*words)

    return stepped


for kind, name in ((Node, 'send'), (Move, 'write'), (Move, 'end')):
    setattr(kind, name, counted(getattr(kind, name)))
status = main(['cluster', 'move-slots', *sys.argv[3:]])
print(f'{steps} steps')
sys.exit(status)
