#!/usr/bin/env python3
"""Writes a script of so many rebindings (at most 8,192), one after another at one node, each of which binds an event anew
and calls it.

    python3 bench/rebindings.py REBINDINGS [EVENTS]

There are EVENTS events, 1 where it is left out, of which only the first is bound anew.
"""
import json
import sys

count = int(sys.argv[1])
events = int(sys.argv[2]) if len(sys.argv) > 2 else 1
names = ["one", "two"]
code = [["add", "r0", "x0"], ["copy", "x0", "r0"], ["done", 1]]
print(json.dumps({
    "version": 1, "nodes": 1, "ticks": 1,
    "micros": [{"name": name, "kind": "prog", "handlers": [{"name": "h", "code": code}]} for name in names],
    "decls": [{"name": "d", "form": "set", "micros": names}],
    "events": [{"name": "e" if at == 0 else f"e{at}", "decl": "d", "handlers": ["one.h"]} for at in range(events)],
    "changes": [{"name": f"to_{name}", "event": "e", "table": [{"event": "e", "handlers": [f"{name}.h"]}]} for name in names],
    "do": [{"tick": 1, "node": 0, "change": f"to_{names[1 - at % 2]}", "args": [1]} for at in range(count)],
}, separators=(",", ":")))
