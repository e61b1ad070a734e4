#!/usr/bin/env python3
"""Writes a script of the group stack of examples/stack.json on three nodes that lose nothing, in which so many messages are cast, one every
nine ticks, so that each is delivered everywhere before the next is cast.

    python3 bench/casts.py CASTS [first|waiting]

With `first` the group first changes to the broadcast of the sequencer. With `waiting` the messages of node 0, which casts
all, are lost to the others, so that none is delivered and all wait.
"""
import json
import pathlib
import sys

casts = int(sys.argv[1])
script = json.loads((pathlib.Path(__file__).parent / "../examples/stack.json").read_text())
changes = [{"tick": 1, "node": 0, "event": "cast", "args": [1, 0]}] if "first" in sys.argv[2:] else []
script["lose"], script["crash"] = [], []
if "waiting" in sys.argv[2:]:
    script["lose"] = [{"from": 0, "to": to, "first": 1, "last": 10000} for to in (1, 2)]
script["ticks"] = 9 * (casts + 1)
script["do"] = changes + [{"tick": 9 * (at + 1), "node": 0, "event": "cast", "args": [0, at]} for at in range(casts)]
print(json.dumps(script, separators=(",", ":")))
