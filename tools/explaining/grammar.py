"""The keys, kinds, forms and instructions that scripts have, with their limits. docs/SCRIPT.md says what they mean."""
import re

TEXT_LIMIT = 1_048_576
NESTING_LIMIT = 127
GREATEST = 18_446_744_073_709_551_615
BOXES_LIMIT = 32  # nodes times microprotocols of one kind
VERTICES_LIMIT = 32  # handlers of a route

# the least number of ports and the handlers of each kind; a scripted one has handlers of its own
PORTS = {"prog": 0, "link": 1, "fd": 2, "rbcast": 2, "cons": 3, "abcast": 3, "seqcast": 2, "repl": 2, "views": 1}
HANDLERS = {
    "link": ["send", "recv"],
    "fd": ["beat", "heard"],
    "rbcast": ["cast", "recv"],
    "cons": ["propose", "recv", "decide", "advance", "suspect"],
    "abcast": ["cast", "heard", "decided"],
    "seqcast": ["cast", "recv"],
    "repl": ["cast", "deliver", "switched"],
    "views": ["ask", "install"],
}
KINDS = list(PORTS)

# the keys of each object, in the order in which they are looked at
TOP = ["version", "nodes", "ticks", "micros", "decls", "events", "changes", "do", "lose", "crash"]
MICRO = ["name", "kind", "nums", "ports", "changes"]
SCRIPTED = MICRO + ["handlers"]
HANDLER = ["name", "code"]
DECLARATION = ["name", "form", "budget"]
BODIES = {"set": ["micros"], "bound": ["bounds"], "route": ["roots", "edges"]}
FORMS = list(BODIES)
BOUND = ["micro", "calls"]
EVENT = ["name", "decl", "handlers"]
CHANGE = ["name", "event", "table"]
ROW = ["event", "handlers"]
ITEM = ["tick", "node", "event", "change", "args"]
LOSS = ["from", "to", "first", "last"]
CRASH = ["node", "tick"]

# what stands after the word of each instruction
INSTRUCTIONS = {
    "set": ["place", "number"],
    "copy": ["place", "place"],
    "add": ["place", "place"],
    "sub": ["place", "place"],
    "less": ["place", "place", "skip"],
    "call": ["port", "count"],
    "later": ["port", "count"],
    "send": ["place", "port", "count"],
    "deliver": ["count"],
    "change": ["change", "count"],
    "done": ["count"],
}
PLACES = ["r0", "r1", "r2", "r3", "x0", "x1", "x2", "x3"]
# the least and the greatest of each number of an instruction, and what it is
NUMBERS = {
    "number": (0, GREATEST, "a number"),
    "skip": (1, 31, "how many instructions are skipped"),
    "count": (0, 4, "how many locals are passed on"),
    "port": (0, GREATEST, "a position in `ports`"),
    "change": (0, GREATEST, "a position in `changes`"),
}

NAME = re.compile(r"[a-z][a-z0-9_]{0,15}")


def is_name(text):
    return NAME.fullmatch(text) is not None


def is_handler_name(text):
    parts = text.split(".")
    return len(parts) == 2 and all(is_name(part) for part in parts)
