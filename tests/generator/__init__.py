"""Scripts for the replay programs, within document 01's domain of equality."""

import random

from .fields import field
from . import ack, buffer, ends, fragments, ordering, sequencing, session

MODES = {"buffer": buffer, "ack": ack, "fragments": fragments, "ordering": ordering,
         "sequencing": sequencing, "ends": ends, "session": session}


def script(mode, seed):
    """The script of a mode and a seed, always the same bytes; its first line names them."""
    name = f"{mode} {seed}"
    return field(0x00, name.encode()) + b"".join(MODES[mode].script(random.Random(name)))
