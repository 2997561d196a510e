#!/usr/bin/env python3
"""An agent that offers half of the bandwidth that it is asked for.

usage: bandwidth.py SOCKET [COUNT]

SOCKET is the control socket of a node, or its socket for guests. It ends after COUNT requests, or else with the node.
"""
import itertools
import sys

import grasp


def main():
    if len(sys.argv) not in (2, 3) or sys.argv[1].startswith("-"):
        sys.exit(__doc__.strip())
    bandwidth = grasp.Objective("bandwidth", neg=True)
    with grasp.Agent(sys.argv[1]) as agent:
        agent.register_asa("bandwidth")
        agent.register_objective(bandwidth)
        for _ in range(int(sys.argv[2])) if len(sys.argv) > 2 else itertools.count():
            session, asked = agent.listen_negotiate(bandwidth)
            if not isinstance(asked.value, int) or asked.loop_count == 0:
                agent.end_negotiate(session, False, "no number")
                continue
            offer = asked._replace(value=asked.value // 2)
            end = agent.negotiate_step(session, offer)
            print(session.peer, "asked", asked.value, "offered", offer.value, end.kind, flush=True)
            if end.kind == "turn":
                agent.end_negotiate(session, False, "one offer")


try:
    main()
except OSError as error:
    sys.exit(f"bandwidth.py: {error}")
except KeyboardInterrupt:
    pass
