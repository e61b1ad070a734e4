#!/usr/bin/env python3
"""Writes a script of long handlers on eight independent microprotocols, which so many events of each tick call in turn.

    python3 bench/independent.py EVENTS [TICKS [ROUNDS]]

Each event is a computation that asks for itself again by a waiting call, ROUNDS times (250): 2 ROUNDS + 1 handler steps,
half of which execute 31 instructions.
"""
import json
import sys

events, ticks, rounds = [int(word) for word in sys.argv[1:]] + [1, 250][len(sys.argv) - 2:]
code = [["add", "r0", "x0"], ["sub", "r1", "r0"], ["copy", "x2", "r1"]] * 9 + \
    [["set", "x3", 1], ["less", "x0", "x3", 2], ["sub", "x0", "x3"], ["later", 0, 1]]
at = range(8)
print(json.dumps({
    "version": 1, "nodes": 1, "ticks": ticks,
    "micros": [{"name": f"m{i}", "kind": "prog", "ports": [f"e{i}"], "handlers": [{"name": "h", "code": code}]} for i in at],
    "decls": [{"name": f"d{i}", "form": "set", "micros": [f"m{i}"], "budget": rounds + 6} for i in at],
    "events": [{"name": f"e{i}", "decl": f"d{i}", "handlers": [f"m{i}.h"]} for i in at],
    "do": [{"tick": tick, "node": 0, "event": f"e{i % 8}", "args": [rounds]}
           for tick in range(1, ticks + 1) for i in range(events)],
}, separators=(",", ":")))
