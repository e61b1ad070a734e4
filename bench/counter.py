#!/usr/bin/env python3
"""Writes a script of one scripted counter and so many external events, all in one tick or spread over ticks.

    python3 bench/counter.py EVENTS [TICKS [BUDGET]]
"""
import json
import sys

events = int(sys.argv[1])
ticks = int(sys.argv[2]) if len(sys.argv) > 2 else 1
budget = {"budget": int(sys.argv[3])} if len(sys.argv) > 3 else {}
code = [["add", "r0", "x0"], ["copy", "x0", "r0"], ["deliver", 1], ["done", 1]]
print(json.dumps({
    "version": 1, "nodes": 1, "ticks": ticks,
    "micros": [{"name": "c", "kind": "prog", "handlers": [{"name": "h", "code": code}]}],
    "decls": [{"name": "d", "form": "set", **budget, "micros": ["c"]}],
    "events": [{"name": "e", "decl": "d", "handlers": ["c.h"]}],
    "do": [{"tick": 1 + at * ticks // events, "node": 0, "event": "e", "args": [1]} for at in range(events)],
}, separators=(",", ":")))
