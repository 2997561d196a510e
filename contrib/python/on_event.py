#!/usr/bin/env python3
"""Runs a command at each event of a node.

usage: on_event.py SOCKET COMMAND [WORD..]

The words of the event stand behind those of the command, its reading of milliseconds first; so `on_event.py SOCKET logger` runs
`logger 1234 want 1 56 64 held 20010db8000000000000000000000000/56`. One command runs at a time. It ends with the node.
"""
import subprocess
import sys

import grasp

if len(sys.argv) < 3 or sys.argv[1].startswith("-"):
    sys.exit(__doc__.strip())
try:
    with grasp.Agent(sys.argv[1]) as agent:
        for words in agent.events():
            subprocess.run(sys.argv[2:] + words, stdin=subprocess.DEVNULL)
except OSError as error:
    sys.exit(f"on_event.py: {error}")
except KeyboardInterrupt:
    pass
