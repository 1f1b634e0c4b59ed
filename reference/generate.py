#!/usr/bin/env python3
"""Prints a generated bench script: generate.py SEED.

The same seed always gives the same script. Scripts of packets and values, scripts over camera heads, and scripts of calls
on sessions take turns.
"""

from __future__ import annotations

import sys
from random import Random

from head_scripts import head_script
from packet_scripts import packet_script
from session_scripts import session_script

SUBJECTS = [packet_script, head_script, session_script]
"""What makes the scripts, in turn."""


def generate(seed: int) -> bytes:
    """The script of a seed."""
    turn, subject = divmod(seed, len(SUBJECTS))
    return SUBJECTS[subject](Random(seed), turn)


def main() -> int:
    """Prints the script of the seed that is given."""
    if len(sys.argv) != 2 or not (sys.argv[1].isascii() and sys.argv[1].isdecimal()):
        print("usage: generate.py SEED", file=sys.stderr)
        return 2
    sys.stdout.buffer.write(generate(int(sys.argv[1])))
    return 0


if __name__ == "__main__":
    sys.exit(main())
