"""Scripts: reading them in four passes, their faults, and their canonical text (docs/SCRIPT.md)."""
import re
from dataclasses import dataclass, field

import json_text

SCRIPT_LIMIT = 1_048_576

KINDS = ["prog", "link", "fd", "rbcast", "cons", "abcast", "seqcast", "repl", "views"]
LEAST_PORTS = {"prog": 0, "link": 1, "fd": 2, "rbcast": 2, "cons": 3, "abcast": 3, "seqcast": 2, "repl": 2, "views": 1}
HANDLERS_OF_KIND = {
    "link": ["send", "recv"],
    "fd": ["beat", "heard"],
    "rbcast": ["cast", "recv"],
    "cons": ["propose", "recv", "decide", "advance", "suspect"],
    "abcast": ["cast", "heard", "decided"],
    "seqcast": ["cast", "recv"],
    "repl": ["cast", "deliver", "switched"],
    "views": ["ask", "install"],
}
# Nodes times microprotocols of one kind.
KIND_LIMIT = 32

_NAME = re.compile(r"[a-z][a-z0-9_]{0,15}")
_HANDLER_NAME = re.compile(r"[a-z][a-z0-9_]{0,15}\.[a-z][a-z0-9_]{0,15}")
_PLACE = re.compile(r"[rx][0-3]")


class Fault(Exception):
    """The first fault of a script. `line` is what stands after `! script `."""

    def __init__(self, line):
        super().__init__(line)
        self.line = line


def missing(key):
    return Fault(f"Missing {key}")


def wrong_form(key):
    return Fault(f"WrongForm {key}")


def unknown(name):
    return Fault(f"Unknown {name}")


def twice(name):
    return Fault(f"Twice {name}")


def over(name, limit):
    return Fault(f"Over {name} {limit}")


# Names are numbers from here on: a microprotocol, declaration, event or change is its position in the script,
# a handler the pair of its microprotocol and its position there.

@dataclass
class Microprotocol:
    name: str
    kind: str
    nums: list
    ports: list            # events
    changes: list          # changes
    code: list             # a list of instructions for each handler, where the kind is prog
    handler_names: list


@dataclass
class Declaration:
    name: str
    budget: int
    form: str
    micros: list = field(default_factory=list)     # of a set: microprotocols
    bounds: list = field(default_factory=list)     # of a bound: pairs of a microprotocol and a number of calls
    roots: list = field(default_factory=list)      # of a route: handlers
    edges: list = field(default_factory=list)      # of a route: pairs of handlers
    vertices: list = field(default_factory=list)   # of a route: its handlers, in the order in which they first stand

    def weights(self):
        """The declared microprotocols, each with the number of versions that a computation takes of it."""
        if self.form == "set":
            return {micro: 1 for micro in self.micros}
        if self.form == "bound":
            return dict(self.bounds)
        return {handler[0]: 1 for handler in self.vertices}


@dataclass
class Event:
    name: str
    declaration: int
    handlers: list


@dataclass
class Change:
    name: str
    event: int
    table: list            # pairs of an event and its new handlers


@dataclass
class Item:
    """An item of `do`."""
    tick: int
    node: int
    cause: tuple           # ("event", number) or ("change", number)
    arguments: list


@dataclass
class Script:
    nodes: int
    ticks: int
    micros: list
    declarations: list
    events: list
    changes: list
    items: list
    losses: list           # (from, to, first, last)
    crashes: list          # (node, tick)
    tree: dict             # with a value for every optional key

    def handler_name(self, handler):
        micro = self.micros[handler[0]]
        return f"{micro.name}.{micro.handler_names[handler[1]]}"


def is_number(value):
    return type(value) is int


def is_name(value):
    return type(value) is str and _NAME.fullmatch(value) is not None


def is_handler_name(value):
    return type(value) is str and _HANDLER_NAME.fullmatch(value) is not None


def is_edge(value):
    return type(value) is list and len(value) == 2 and all(is_handler_name(end) for end in value)


def is_place(value):
    return type(value) is str and _PLACE.fullmatch(value) is not None


def is_word_count(value):
    return is_number(value) and value <= 4


def is_skip(value):
    return is_number(value) and 1 <= value <= 31


INSTRUCTIONS = {
    "set": [is_place, is_number], "copy": [is_place, is_place], "add": [is_place, is_place], "sub": [is_place, is_place],
    "less": [is_place, is_place, is_skip], "call": [is_number, is_word_count], "later": [is_number, is_word_count],
    "send": [is_place, is_number, is_word_count], "deliver": [is_word_count], "change": [is_number, is_word_count],
    "done": [is_word_count],
}


def is_instruction(value):
    if type(value) is not list or not value or type(value[0]) is not str:
        return False
    tests = INSTRUCTIONS.get(value[0])
    return tests is not None and len(value) == 1 + len(tests) and all(map(lambda test, part: test(part), tests, value[1:]))


class FormPass:
    """The first pass: keys, forms and limits. It builds the tree that has a value for every optional key as it goes."""

    def object(self, value, key, allowed):
        if type(value) is not dict or any(own not in allowed for own in value):
            raise wrong_form(key)

    def number(self, parent, key, least=0, limit=None, default=None):
        if key not in parent:
            if default is None:
                raise missing(key)
            return default
        value = parent[key]
        if not is_number(value) or value < least:
            raise wrong_form(key)
        if limit is not None and value > limit:
            raise over(key, limit)
        return value

    def name(self, parent, key):
        if key not in parent:
            raise missing(key)
        if not is_name(parent[key]):
            raise wrong_form(key)
        return parent[key]

    def scalars(self, parent, key, test, least, limit, optional):
        """A list of numbers, names, handler names, edges or instructions. The form of the items belongs to the form of the
        list, so that a list which is both ill-formed and too long has the fault WrongForm."""
        if key not in parent:
            if not optional:
                raise missing(key)
            return []
        value = parent[key]
        if type(value) is not list or not all(test(item) for item in value) or len(value) < least:
            raise wrong_form(key)
        if len(value) > limit:
            raise over(key, limit)
        return value

    def objects(self, parent, key, least, limit, optional, visit):
        """A list of objects: the tests of the list, and then its objects in order."""
        if key not in parent:
            if not optional:
                raise missing(key)
            return []
        value = parent[key]
        if type(value) is not list or len(value) < least:
            raise wrong_form(key)
        if len(value) > limit:
            raise over(key, limit)
        return [visit(item, key) for item in value]

    def top(self, tree):
        self.object(tree, "script", ["version", "nodes", "ticks", "micros", "decls", "events", "changes", "do", "lose",
                                     "crash"])
        if "version" not in tree:
            raise missing("version")
        if not is_number(tree["version"]) or tree["version"] != 1:
            raise wrong_form("version")
        return {
            "version": 1,
            "nodes": self.number(tree, "nodes", 1, 8),
            "ticks": self.number(tree, "ticks", 1, 10_000),
            "micros": self.objects(tree, "micros", 1, 24, False, self.micro),
            "decls": self.objects(tree, "decls", 1, 64, False, self.declaration),
            "events": self.objects(tree, "events", 1, 64, False, self.event),
            "changes": self.objects(tree, "changes", 0, 16, True, self.change),
            "do": self.objects(tree, "do", 0, 8_192, True, self.item),
            "lose": self.objects(tree, "lose", 0, 256, True, self.loss),
            "crash": self.objects(tree, "crash", 0, 8, True, self.crash),
        }

    def micro(self, value, key):
        kind = value.get("kind") if type(value) is dict else None
        known = type(kind) is str and kind in KINDS
        allowed = ["name", "kind", "nums", "ports", "changes"]
        if not known or kind == "prog":
            allowed.append("handlers")
        self.object(value, key, allowed)
        out = {"name": self.name(value, "name")}
        if "kind" not in value:
            raise missing("kind")
        if not known:
            raise wrong_form("kind")
        out["kind"] = kind
        out["nums"] = self.scalars(value, "nums", is_number, 0, 12, True)
        out["ports"] = self.scalars(value, "ports", is_name, 0, 16, True)
        out["changes"] = self.scalars(value, "changes", is_name, 0, 16, True)
        if kind == "prog":
            out["handlers"] = self.objects(value, "handlers", 1, 16, False, self.handler)
        return out

    def handler(self, value, key):
        self.object(value, key, ["name", "code"])
        return {"name": self.name(value, "name"), "code": self.scalars(value, "code", is_instruction, 0, 32, False)}

    def declaration(self, value, key):
        form = value.get("form") if type(value) is dict else None
        keys_of_form = {"set": ["micros"], "bound": ["bounds"], "route": ["roots", "edges"]}
        known = type(form) is str and form in keys_of_form
        allowed = ["name", "form", "budget"]
        for other, keys in keys_of_form.items():
            if not known or other == form:
                allowed += keys
        self.object(value, key, allowed)
        out = {"name": self.name(value, "name")}
        if "form" not in value:
            raise missing("form")
        if not known:
            raise wrong_form("form")
        out["form"] = form
        out["budget"] = self.number(value, "budget", 1, 256, default=32)
        if form == "set":
            out["micros"] = self.scalars(value, "micros", is_name, 1, 24, False)
        elif form == "bound":
            out["bounds"] = self.objects(value, "bounds", 1, 24, False, self.bound)
        else:
            out["roots"] = without_repeats(self.scalars(value, "roots", is_handler_name, 0, 32, False))
            out["edges"] = without_repeats(self.scalars(value, "edges", is_edge, 0, 256, True))
        return out

    def bound(self, value, key):
        self.object(value, key, ["micro", "calls"])
        return {"micro": self.name(value, "micro"), "calls": self.number(value, "calls", 1, 256)}

    def event(self, value, key):
        self.object(value, key, ["name", "decl", "handlers"])
        return {"name": self.name(value, "name"), "decl": self.name(value, "decl"), "handlers": self.handlers(value)}

    def handlers(self, value):
        return self.scalars(value, "handlers", is_handler_name, 0, 4, False)

    def change(self, value, key):
        self.object(value, key, ["name", "event", "table"])
        return {"name": self.name(value, "name"), "event": self.name(value, "event"),
                "table": self.objects(value, "table", 1, 16, False, self.row)}

    def row(self, value, key):
        self.object(value, key, ["event", "handlers"])
        return {"event": self.name(value, "event"), "handlers": self.handlers(value)}

    def item(self, value, key):
        self.object(value, key, ["tick", "node", "event", "change", "args"])
        if ("event" in value) == ("change" in value):
            raise wrong_form(key)
        out = {"tick": self.number(value, "tick", 1), "node": self.number(value, "node")}
        cause = "event" if "event" in value else "change"
        out[cause] = self.name(value, cause)
        out["args"] = self.scalars(value, "args", is_number, 0, 12, True)
        return out

    def loss(self, value, key):
        keys = ["from", "to", "first", "last"]
        self.object(value, key, keys)
        return {own: self.number(value, own) for own in keys}

    def crash(self, value, key):
        keys = ["node", "tick"]
        self.object(value, key, keys)
        return {own: self.number(value, own) for own in keys}


def without_repeats(items):
    out = []
    for item in items:
        if item not in out:
            out.append(item)
    return out


def handler_names(micro):
    """The names of a microprotocol's handlers, in order."""
    if micro["kind"] == "prog":
        return [handler["name"] for handler in micro["handlers"]]
    return HANDLERS_OF_KIND[micro["kind"]]


def twice_pass(tree):
    """The second pass: no name stands twice where that isn't allowed."""
    def once(names):
        seen = set()
        for name in names:
            if name in seen:
                raise twice(name)
            seen.add(name)

    def names_of(objects, key="name"):
        return [value[key] for value in objects]

    once(names_of(tree["micros"]))
    for micro in tree["micros"]:
        if micro["kind"] == "prog":
            once(names_of(micro["handlers"]))
    once(names_of(tree["decls"]))
    once(names_of(tree["events"]))
    once(names_of(tree["changes"]))
    for declaration in tree["decls"]:
        if declaration["form"] == "set":
            once(declaration["micros"])
        if declaration["form"] == "bound":
            once(names_of(declaration["bounds"], "micro"))
    for event in tree["events"]:
        once(event["handlers"])
    for change in tree["changes"]:
        once(names_of(change["table"], "event"))
    for change in tree["changes"]:
        for row in change["table"]:
            once(row["handlers"])


def unknown_pass(tree):
    """The third pass: every name that is used is defined."""
    micros = {micro["name"]: micro for micro in tree["micros"]}
    declarations = {declaration["name"] for declaration in tree["decls"]}
    events = {event["name"] for event in tree["events"]}
    changes = {change["name"] for change in tree["changes"]}

    def among(name, known):
        if name not in known:
            raise unknown(name)

    def handler(name):
        micro, own = name.split(".")
        if micro not in micros or own not in handler_names(micros[micro]):
            raise unknown(name)

    for micro in tree["micros"]:
        for name in micro["ports"]:
            among(name, events)
        for name in micro["changes"]:
            among(name, changes)
    for declaration in tree["decls"]:
        if declaration["form"] == "set":
            for name in declaration["micros"]:
                among(name, micros)
        elif declaration["form"] == "bound":
            for bound in declaration["bounds"]:
                among(bound["micro"], micros)
        else:
            for name in declaration["roots"]:
                handler(name)
            for edge in declaration["edges"]:
                for name in edge:
                    handler(name)
    for event in tree["events"]:
        among(event["decl"], declarations)
        for name in event["handlers"]:
            handler(name)
    for change in tree["changes"]:
        among(change["event"], events)
        for row in change["table"]:
            among(row["event"], events)
            for name in row["handlers"]:
                handler(name)
    for item in tree["do"]:
        if "event" in item:
            among(item["event"], events)
        else:
            among(item["change"], changes)


def route_vertices(declaration):
    """The handlers of a route: its roots and then the ends of its edges, each once."""
    return without_repeats(declaration["roots"] + [handler for edge in declaration["edges"] for handler in edge])


def totals_pass(tree):
    """The fourth pass: positions, nodes and ticks that have to be there, and totals."""
    for micro in tree["micros"]:
        if len(micro["ports"]) < LEAST_PORTS[micro["kind"]]:
            raise wrong_form("ports")
    for micro in tree["micros"]:
        for handler in micro.get("handlers", []):
            for instruction in handler["code"]:
                word = instruction[0]
                if word in ("call", "later") and instruction[1] >= len(micro["ports"]):
                    raise wrong_form("code")
                if word == "send" and instruction[2] >= len(micro["ports"]):
                    raise wrong_form("code")
                if word == "change" and instruction[1] >= len(micro["changes"]):
                    raise wrong_form("code")
    for declaration in tree["decls"]:
        if declaration["form"] == "route" and len(route_vertices(declaration)) > 32:
            raise over("edges", 32)
    nodes = tree["nodes"]
    for key, fields in (("do", ["node"]), ("lose", ["from", "to"]), ("crash", ["node"])):
        for value in tree[key]:
            for name in fields:
                if value[name] >= nodes:
                    raise over(name, nodes - 1)
    for item in tree["do"]:
        if item["tick"] > tree["ticks"]:
            raise over("tick", tree["ticks"])
    for kind in KINDS:
        if nodes * sum(micro["kind"] == kind for micro in tree["micros"]) > KIND_LIMIT:
            raise over(kind, KIND_LIMIT)


def build(tree) -> Script:
    """The script of a tree that has passed all four passes: names become numbers."""
    def positions(key):
        return {value["name"]: at for at, value in enumerate(tree[key])}

    micros, declarations, events, changes = map(positions, ("micros", "decls", "events", "changes"))
    names = [list(handler_names(micro)) for micro in tree["micros"]]

    def handler(name):
        micro, own = name.split(".")
        return (micros[micro], names[micros[micro]].index(own))

    def handlers(value):
        return [handler(name) for name in value["handlers"]]

    def declaration_of(value):
        out = Declaration(value["name"], value["budget"], value["form"])
        if out.form == "set":
            out.micros = [micros[name] for name in value["micros"]]
        elif out.form == "bound":
            out.bounds = [(micros[bound["micro"]], bound["calls"]) for bound in value["bounds"]]
        else:
            out.roots = [handler(name) for name in value["roots"]]
            out.edges = [(handler(start), handler(end)) for start, end in value["edges"]]
            out.vertices = [handler(name) for name in route_vertices(value)]
        return out

    def item_of(value):
        cause = ("event", events[value["event"]]) if "event" in value else ("change", changes[value["change"]])
        return Item(value["tick"], value["node"], cause, value["args"])

    return Script(
        tree["nodes"], tree["ticks"],
        [Microprotocol(micro["name"], micro["kind"], micro["nums"], [events[port] for port in micro["ports"]],
                       [changes[name] for name in micro["changes"]],
                       [own["code"] for own in micro.get("handlers", [])], names[at])
         for at, micro in enumerate(tree["micros"])],
        [declaration_of(value) for value in tree["decls"]],
        [Event(value["name"], declarations[value["decl"]], handlers(value)) for value in tree["events"]],
        [Change(value["name"], events[value["event"]], [(events[row["event"]], handlers(row)) for row in value["table"]])
         for value in tree["changes"]],
        [item_of(value) for value in tree["do"]],
        [(loss["from"], loss["to"], loss["first"], loss["last"]) for loss in tree["lose"]],
        [(crash["node"], crash["tick"]) for crash in tree["crash"]],
        tree)


def read_script(data: bytes) -> Script:
    """The script that a text holds. Raises its first Fault."""
    if len(data) > SCRIPT_LIMIT:
        raise Fault("TooLong")
    try:
        value = json_text.parse(data)
    except json_text.NotJson:
        raise Fault("NotJson") from None
    tree = FormPass().top(value)
    twice_pass(tree)
    unknown_pass(tree)
    totals_pass(tree)
    return build(tree)


def canonical(script: Script) -> str:
    return json_text.compact(script.tree)


def cells_needed(script: Script) -> int:
    return max(cells_of_budget(declaration.budget) for declaration in script.declarations)


def cells_of_budget(budget: int) -> int:
    """The cells that an open computation holds."""
    return 16 * budget + 16
