#!/usr/bin/env python3
"""Writes a script of 64 events with names of sixteen bytes, and of so many items (at most 8,192) spread over them."""
import json
import sys

items = int(sys.argv[1])
names = [f"event_of_names{n:02}" for n in range(64)]
script = {"version": 1, "nodes": 1, "ticks": 10000,
          "micros": [{"name": "micro", "kind": "prog", "handlers": [{"name": "handler", "code": []}]}],
          "decls": [{"name": "all", "form": "set", "micros": ["micro"]}],
          "events": [{"name": name, "decl": "all", "handlers": ["micro.handler"]} for name in names],
          "do": [{"tick": i + 1, "node": 0, "event": names[i % 64]} for i in range(items)]}
print(json.dumps(script, separators=(",", ":")), end="")
