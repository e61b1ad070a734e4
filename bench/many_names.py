#!/usr/bin/env python3
"""Writes a script full of names of sixteen bytes: 24 microprotocols of 16 handlers, 64 events of four handlers, and so
many routes (at most 64) of 32 roots and 256 edges, which name microprotocols and handlers from all over."""
import json
import sys

routes = int(sys.argv[1])
micros = [f"microprotocol_{m:02}" for m in range(24)]
handlers = [f"handler_number{h:02}" for h in range(16)]
events = [f"event_of_names{n:02}" for n in range(64)]
every = [f"{m}.{h}" for m in micros for h in handlers]


def route(n):
    """Names of 32 handlers that stand far apart, and the edges between them."""
    names = [every[(n + 12 * i) % len(every)] for i in range(32)]
    edges = [[a, b] for i, a in enumerate(names) for b in names[i + 1:]]
    return {"name": f"route_of_names{n:02}", "form": "route", "roots": names, "edges": edges[:256]}


decls = [{"name": "every_microproto", "form": "set", "micros": micros}] + [route(n) for n in range(routes)]
script = {"version": 1, "nodes": 1, "ticks": 1,
          "micros": [{"name": m, "kind": "prog", "ports": events[:16], "handlers": [{"name": h, "code": []} for h in handlers]}
                     for m in micros],
          "decls": decls[-64:],
          "events": [{"name": name, "decl": decls[-1]["name"], "handlers": every[n:n + 4]} for n, name in enumerate(events)]}
print(json.dumps(script, separators=(",", ":")), end="")
