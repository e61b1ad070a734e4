#!/usr/bin/env python3
"""Prints a script of so many events, each a computation of one call of each of so many microprotocols, one inside the
other, under a set, a bound, a route of one edge a call, or a dense route of all edges forward, of at most 256."""
import json
import sys

events, length, form = int(sys.argv[1]), int(sys.argv[2]), sys.argv[3]
names = [f"m{i}" for i in range(length)]
last = length - 1
micros = [{"name": name, "kind": "prog", "ports": [f"e{i + 1}"],
           "handlers": [{"name": "h", "code": [["call", 0, 1], ["done", 1]]}]} for i, name in enumerate(names[:-1])]
micros.append({"name": names[last], "kind": "prog", "handlers": [{"name": "h", "code": [["done", 1]]}]})
near = [[f"m{i}.h", f"m{i + 1}.h"] for i in range(last)]
far = [[f"m{i}.h", f"m{j}.h"] for i in range(length) for j in range(i + 2, length)]
decl = {
    "set": {"form": "set", "micros": names},
    "bound": {"form": "bound", "bounds": [{"micro": name, "calls": 1} for name in names]},
    "route": {"form": "route", "roots": ["m0.h"], "edges": near},
    "dense": {"form": "route", "roots": ["m0.h"], "edges": (near + far)[:256]},
}[form]
print(json.dumps({
    "version": 1, "nodes": 1, "ticks": 1, "micros": micros, "decls": [{"name": "d", **decl}],
    "events": [{"name": f"e{i}", "decl": "d", "handlers": [f"m{i}.h"]} for i in range(length)],
    "do": [{"tick": 1, "node": 0, "event": "e0", "args": [1]}] * events}))
