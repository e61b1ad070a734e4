#!/usr/bin/env python3
"""Writes a script of about so many bytes (at most 1,048,576): full microprotocols, and external events with twelve
long arguments."""
import json
import sys

size = int(sys.argv[1])
code = [["less", "r0", "x0", 1]] * 32
micros = [{"name": f"micro{m}", "kind": "prog", "handlers": [{"name": f"handler{h}", "code": code} for h in range(16)]}
          for m in range(24)]
script = {"version": 1, "nodes": 1, "ticks": 10000, "micros": micros,
          "decls": [{"name": "all", "form": "set", "micros": [m["name"] for m in micros]}],
          "events": [{"name": "event", "decl": "all", "handlers": ["micro0.handler0"]}], "do": []}
item = {"tick": 10000, "node": 0, "event": "event", "args": [18446744073709551615] * 12}
short = len(json.dumps(script, separators=(",", ":")))
each = len(json.dumps(item, separators=(",", ":"))) + 1
keep = max(1, min(24, 24 * size // (2 * short)))
script["micros"] = micros[:keep]
script["decls"][0]["micros"] = [m["name"] for m in micros[:keep]]
short = len(json.dumps(script, separators=(",", ":")))
script["do"] = [item] * max(0, min(8192, (size - short) // each))
print(json.dumps(script, separators=(",", ":")), end="")
