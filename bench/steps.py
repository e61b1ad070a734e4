#!/usr/bin/env python3
"""Writes a script in which one microprotocol of the group stack, at node 0 of three, takes steps over a state that was built up.

    python3 bench/steps.py ROW SIZE STEPS

At most 160 steps; 10 of a row whose steps take away what was built up. A row has what builds up the state, so many times; what must come before the steps; and the steps. What the microprotocol
calls goes to a handler that does nothing. `list` as the only word lists the rows, and a row alone tells the crate of its
microprotocol.
"""
import json
import sys


def message(key, epoch=0, origin=1, kind=0):
    """The five words of a message."""
    return [epoch, origin, key, kind, key]


def estimate(i, sender):
    return ("recv", [sender, 1, i, 1, 0, *message(i)])


def acknowledgement(i, sender):
    return ("recv", [sender, 3, i, 1, 0, *message(i)])


def proposal(i):
    return ("recv", [0, 2, i, 1, 0, *message(i)])


def proposed(i):
    """Instance i has a proposal here: this node coordinates its first round."""
    return [("propose", [i, *message(i)]), estimate(i, 1), estimate(i, 2)]


def decided(i):
    """Instance i is decided; this node has an estimate of its first round."""
    return [("propose", [i, *message(i)]), estimate(i, 1), ("decide", [0, i, 1, i, *message(i)])]


def handed_on(i):
    """Message i came up, was decided and was handed on."""
    return [("heard", [1, i, 0, *message(i)]), ("decided", [i, *message(i)])]


def numbered(i):
    return [("recv", [1, 0, *message(i)]), ("recv", [0, 1, i, *message(i)])]


def nothing(_):
    return []


# the name of a row: its kind, what builds up, what comes before the steps, a step
ROWS = {
    "link.send": ("link", lambda i: [("send", [1, 0, i])], nothing, lambda i: ("send", [1, 0, i])),
    "link.recv": ("link", lambda i: [("recv", [1, 0, i])], nothing, lambda i: ("recv", [1, 0, i])),
    "fd.beat": ("fd", lambda i: [("beat", [])], nothing, lambda i: ("beat", [])),
    "fd.heard": ("fd", lambda i: [("heard", [1])], nothing, lambda i: ("heard", [1])),
    "rb.cast": ("rbcast", lambda i: [("recv", [1, 1, i, 0, i])], nothing, lambda i: ("cast", [0, i])),
    "rb.recv": ("rbcast", lambda i: [("recv", [1, 1, i, 0, i])], nothing, lambda i: ("recv", [1, 1, i, 0, i])),
    "cons.propose": ("cons", decided, nothing, lambda i: ("propose", [i, *message(i)])),
    "cons.recv, an estimate": ("cons", decided, nothing, lambda i: estimate(i, 1)),
    "cons.recv, a proposal": ("cons", decided, nothing, proposal),
    "cons.recv, an acknowledgement": ("cons", decided, proposed, lambda i: acknowledgement(i, 1)),
    "cons.decide": ("cons", decided, proposed, lambda i: ("decide", [0, i, 1, i, *message(i)])),
    "cons.advance": ("cons", decided, proposed, lambda i: ("advance", [i])),
    "cons.suspect, all decided": ("cons", decided, proposed, lambda i: ("suspect", [1])),
    "cons.suspect, all undecided": ("cons", proposed, nothing, lambda i: ("suspect", [1])),
    "ab.cast": ("abcast", handed_on, nothing, lambda i: ("cast", message(i, origin=0))),
    "ab.heard": ("abcast", handed_on, nothing, lambda i: ("heard", [1, i, 0, *message(i)])),
    "ab.decided": ("abcast", handed_on, lambda i: [("heard", [1, i, 0, *message(i)])], lambda i: ("decided", [i, *message(i)])),
    "sq.cast": ("seqcast", numbered, nothing, lambda i: ("cast", message(i, origin=0))),
    "sq.recv, to be numbered": ("seqcast", numbered, nothing, lambda i: ("recv", [1, 0, *message(i)])),
    "sq.recv, a numbered one": ("seqcast", numbered, nothing, lambda i: ("recv", [0, 1, i, *message(i)])),
    "repl.cast": ("repl", lambda i: [("deliver", message(i))], nothing, lambda i: ("cast", [0, i])),
    "repl.deliver": ("repl", lambda i: [("deliver", message(i))], nothing, lambda i: ("deliver", message(i))),
    "views.ask": ("views", lambda i: [("install", [i])], nothing, lambda i: ("ask", [i])),
    "views.install": ("views", lambda i: [("install", [i])], nothing, lambda i: ("install", [i])),
    # while all wait: messages that are not decided, a number that has not come, own casts, messages of a later epoch
    "ab.heard, pending": ("abcast", lambda i: [("heard", [1, i, 0, *message(i)])], nothing, lambda i: ("heard", [1, i, 0, *message(i)])),
    "ab.decided, pending": ("abcast", lambda i: [("heard", [1, i, 0, *message(i)])], nothing, None),
    "sq.recv, a gap": ("seqcast", lambda i: [("recv", [0, 1, i + 1, *message(i)])], nothing, lambda i: ("recv", [0, 1, i + 1, *message(i)])),
    "repl.cast, own": ("repl", lambda i: [("cast", [0, i])], nothing, lambda i: ("cast", [0, i])),
    "repl.deliver, own": ("repl", lambda i: [("cast", [0, i])], nothing, None),
    "repl.deliver, early": ("repl", lambda i: [("deliver", message(i, epoch=1))], nothing, lambda i: ("deliver", message(i))),
}
# the last ones that wait are the steps: the first of the list is the cheapest
FROM_THE_END = {
    "ab.decided, pending": lambda size, at: ("decided", [at, *message(size - at + 1)]),
    "repl.deliver, own": lambda size, at: ("deliver", message(size - at + 1, origin=0)),
}
PORTS = {"link": 5, "fd": 2, "rbcast": 2, "cons": 3, "abcast": 3, "seqcast": 2, "repl": 2, "views": 1}
NUMS = {"fd": [0, 1000000], "rbcast": [1], "cons": [2], "seqcast": [3, 0]}
HANDLERS = {
    "link": ["send", "recv"], "fd": ["beat", "heard"], "rbcast": ["cast", "recv"],
    "cons": ["propose", "recv", "decide", "advance", "suspect"], "abcast": ["cast", "heard", "decided"],
    "seqcast": ["cast", "recv"], "repl": ["cast", "deliver", "switched"], "views": ["ask", "install"],
}


def script(row, size, steps):
    kind, build, before, step = ROWS[row]
    at = range(size + 1, size + steps + 1)
    events = [event for i in range(1, size + 1) for event in build(i)]
    # what comes before the steps comes in a script without them, too, so that a difference has the steps alone
    events += [event for i in range(size + 1, size + 161) for event in before(i)]
    events += [FROM_THE_END[row](size, i) for i in range(1, steps + 1)] if step is None else [step(i) for i in at]
    ports = [f"port{i}" for i in range(PORTS[kind])]
    sink = {"name": "sink", "kind": "prog", "handlers": [{"name": "take", "code": []}]}
    micro = {"name": "m", "kind": kind, "nums": NUMS.get(kind, []), "ports": ports, "changes": []}
    return {
        "version": 1, "nodes": 3, "ticks": 1, "micros": [micro, sink],
        "decls": [{"name": "d", "form": "set", "micros": ["m", "sink"], "budget": 256}],
        "events": [{"name": name, "decl": "d", "handlers": [f"m.{name}"]} for name in HANDLERS[kind]]
        + [{"name": name, "decl": "d", "handlers": ["sink.take"]} for name in ports],
        "do": [{"tick": 1, "node": 0, "event": name, "args": args} for name, args in events],
    }


if sys.argv[1:] == ["list"]:
    print("\n".join(f"{10 if row in FROM_THE_END else 150} {row}" for row in ROWS))
elif len(sys.argv) == 2:
    print("samoa_" + ROWS[sys.argv[1]][0])
else:
    print(json.dumps(script(sys.argv[1], int(sys.argv[2]), int(sys.argv[3])), separators=(",", ":")))
