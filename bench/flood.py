#!/usr/bin/env python3
"""Writes a script in which each message that comes sends one to all nodes, until the last tick.

    python3 bench/flood.py TICKS ROOTS [NODES]

Each of ROOTS external events of the first tick starts a flood: with 8 nodes 1, 8, 64, .. computations a tick, which are
37,449 in 6 ticks, and with one node one a tick.
"""
import json
import sys

ticks, roots = int(sys.argv[1]), int(sys.argv[2])
nodes = int(sys.argv[3]) if len(sys.argv) > 3 else 8
code = [["set", "x0", nodes], ["send", "x0", 0, 0]]
print(json.dumps({
    "version": 1, "nodes": nodes, "ticks": ticks,
    "micros": [{"name": "m", "kind": "prog", "ports": ["e"], "handlers": [{"name": "h", "code": code}]}],
    "decls": [{"name": "d", "form": "set", "micros": ["m"]}],
    "events": [{"name": "e", "decl": "d", "handlers": ["m.h"]}],
    "do": [{"tick": 1, "node": 0, "event": "e"}] * roots,
}, separators=(",", ":")))
