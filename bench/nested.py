#!/usr/bin/env python3
"""Prints a script of so many events, each a computation of nested calls of a depth, with budget 256.

A computation repeats a chain of calls, one inside the other, and then asks for itself again by a waiting call, until
its units are nearly used up. With `--steps` prints how many handler steps a computation makes.
"""
import json
import sys

events, depth = int(sys.argv[1]), int(sys.argv[2])
rounds = 256 // (depth + 2)
if "--steps" in sys.argv[3:]:
    print(rounds * (2 * depth + 4) + 1)
    sys.exit()
top = [["set", "x3", 1], ["less", "x2", "x3", 3], ["call", 0, 1], ["sub", "x2", "x3"], ["later", 1, 3]]
down = [["set", "x3", 1], ["less", "x0", "x3", 3], ["sub", "x0", "x3"], ["call", 0, 1], ["add", "x0", "x3"], ["done", 1]]
print(json.dumps({
    "version": 1, "nodes": 1, "ticks": 1,
    "micros": [{"name": "m", "kind": "prog", "ports": ["down", "top"],
                "handlers": [{"name": "top", "code": top}, {"name": "down", "code": down}]}],
    "decls": [{"name": "all", "form": "set", "micros": ["m"], "budget": 256}],
    "events": [{"name": "top", "decl": "all", "handlers": ["m.top"]}, {"name": "down", "decl": "all", "handlers": ["m.down"]}],
    "do": [{"tick": 1, "node": 0, "event": "top", "args": [depth, 0, rounds]}] * events}))
