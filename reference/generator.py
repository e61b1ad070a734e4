"""Random scripts, faulty texts and changed journals, from a seeded source.

The forms of scripts:
    prog       scripted microprotocols, wired at random
    mixed      the same, and the other kinds among them
    consensus  consensus alone with random events
    group      the group stack on 1 to 4 nodes with random events
    wide       the group stack on 2 to 8 nodes with more events (it needs a higher limit of computations)
    tiny       the group stack or consensus with small budgets, other declarations and stray events, which bring about cuts
               and refusals amid the kinds
"""
import copy
import re

import samples
import script as scripts
from serial_run import history

FORMS = ["prog", "mixed", "consensus", "group", "wide", "tiny"]
# Scripts of any form are drawn from these; wide isn't among them, as most of its scripts have too many computations.
DRAWN_FORMS = ["prog"] * 3 + ["mixed"] * 2 + ["group"] * 2 + ["consensus", "tiny"]
LARGE_NUMBERS = [0, 1, 2, 3, 5, 7, 2 ** 32, 2 ** 63, 2 ** 64 - 1]
BUDGETS = [1, 1, 2, 3, 5, 8, 16, 32, 64, 256]


def number(random):
    return random.choice(LARGE_NUMBERS) if random.random() < 0.2 else random.randrange(6)


def numbers(random, count):
    return [number(random) for _ in range(count)]


def place(random):
    return random.choice("rx") + str(random.randrange(4))


def some(random, values, least, most):
    values = list(values)
    return random.sample(values, min(len(values), random.randint(least, most)))


def instruction(random, ports, changes):
    word = random.choice(["set", "copy", "add", "sub", "less", "deliver", "done", "send", "change"]
                         + ["call"] * 4 + ["later"] * 2)
    if word in ("call", "later", "send") and not ports or word == "change" and not changes:
        word = "add"
    match word:
        case "set":
            return ["set", place(random), number(random)]
        case "copy" | "add" | "sub":
            return [word, place(random), place(random)]
        case "less":
            return ["less", place(random), place(random), random.choice([1, 1, 2, 3, 31])]
        case "call" | "later":
            return [word, random.randrange(ports), random.randrange(5)]
        case "send":
            return ["send", place(random), random.randrange(ports), random.randrange(5)]
        case "change":
            return ["change", random.randrange(changes), random.randrange(5)]
    return [word, random.randrange(5)]


def code(random, ports, changes):
    out = [instruction(random, ports, changes) for _ in range(random.randrange(10))]
    if random.random() < 0.7:
        out += [["add", "r0", "x0"], ["copy", "x0", "r0"], ["done", random.randrange(1, 4)]]
    return out


def declaration(random, name, micro_names, handlers):
    out = {"name": name, "form": random.choice(["set", "bound", "route"])}
    if random.random() < 0.6:
        out["budget"] = random.choice(BUDGETS)
    if out["form"] == "set":
        out["micros"] = some(random, micro_names, 1, 4) if random.random() < 0.5 else list(micro_names)
    elif out["form"] == "bound":
        out["bounds"] = [{"micro": micro, "calls": random.choice([1, 1, 2, 3, 4, 256])}
                         for micro in some(random, micro_names, 1, 4)]
    else:
        out["roots"] = some(random, handlers, 0, 4) if random.random() < 0.5 else handlers[:32]
        if random.random() < 0.9:
            out["edges"] = [[random.choice(handlers), random.choice(handlers)]
                            for _ in range(random.randrange(3 * len(handlers)))]
    return out


def wired(random, mixed):
    """Random microprotocols, declarations, events and changes, wired in any way."""
    nodes = random.choice([1, 1, 2, 2, 3, 4])
    ticks = random.choice([1, 2, 3, 4, 6])
    micro_names = random.sample(["a", "b", "c", "dd", "e_1", "f9", "gamma", "x" * 16], random.randint(1, 4))
    event_names = [f"event{at}" for at in range(random.randint(1, 7))]
    change_names = [f"change{at}" for at in range(random.randint(0, 3))]
    micros = []
    for name in micro_names:
        micro = {"name": name, "kind": random.choice(scripts.KINDS[1:]) if mixed and random.random() < 0.6 else "prog"}
        if random.random() < 0.6:
            micro["nums"] = numbers(random, random.choice([0, 1, 2, 4, 5, 12]))
        least = 3 if micro["kind"] == "link" else scripts.LEAST_PORTS[micro["kind"]]
        ports = random.randint(least, 6)
        micro["ports"] = [random.choice(event_names) for _ in range(ports)]
        changes = [random.choice(change_names) for _ in range(random.randint(0, 2))] if change_names else []
        if changes:
            micro["changes"] = changes
        if micro["kind"] == "prog":
            micro["handlers"] = [{"name": handler, "code": code(random, ports, len(changes))}
                                 for handler in random.sample(["h", "g", "k", "w2", "z_z"], random.randint(1, 4))]
        if not ports and random.random() < 0.5:
            del micro["ports"]
        micros.append(micro)
    handlers = [f"{micro['name']}.{own}" for micro in micros for own in scripts.handler_names(micro)]
    declarations = [declaration(random, f"decl{at}", micro_names, handlers) for at in range(random.randint(1, 5))]
    most = 4 if random.random() < 0.4 else 2

    def bound_handlers():
        return some(random, handlers, 0 if random.random() < 0.2 else 1, most)

    tree = {"version": 1, "nodes": nodes, "ticks": ticks, "micros": micros, "decls": declarations}
    tree["events"] = [{"name": name, "decl": random.choice(declarations)["name"], "handlers": bound_handlers()}
                      for name in event_names]
    if change_names:
        tree["changes"] = [
            {"name": name, "event": random.choice(event_names),
             "table": [{"event": own, "handlers": bound_handlers()} for own in some(random, event_names, 1, 3)]}
            for name in change_names]
    do = []
    for _ in range(random.randrange(9)):
        item = {"tick": random.randint(1, ticks), "node": random.randrange(nodes)}
        if change_names and random.random() < 0.2:
            item["change"] = random.choice(change_names)
        else:
            item["event"] = random.choice(event_names)
        if random.random() < 0.9:
            item["args"] = numbers(random, random.choice([0, 1, 1, 2, 3, 5, 12]))
        do.append(item)
    if do or random.random() < 0.5:
        tree["do"] = do
    add_losses_and_crashes(random, tree)
    return tree


def add_losses_and_crashes(random, tree):
    nodes, ticks = tree["nodes"], tree["ticks"]
    if random.random() < 0.4:
        tree["lose"] = []
        for _ in range(random.randint(0, 4)):
            first = random.randint(0, ticks)
            last = random.choice([first, first + 1, ticks, 2 ** 64 - 1, 0])
            tree["lose"].append(samples.loss(random.randrange(nodes), random.randrange(nodes), first, last))
    if random.random() < 0.3:
        tree["crash"] = [{"node": random.randrange(nodes), "tick": random.randint(0, ticks + 1)}
                         for _ in range(random.randint(0, 2))]


def stack(random, form):
    """The group stack or consensus, with random events from outside."""
    wide = form == "wide"
    if wide:
        nodes, ticks = random.randint(2, 8), random.randint(12, 40)
    else:
        nodes, ticks = random.randint(1, 4), random.randint(3, 16)
    if form == "consensus":
        tree = samples.consensus(nodes=nodes, ticks=ticks)
        calls = {
            "propose": (5, lambda: [random.randint(0, 2)] + numbers(random, random.choice([1, 5, 5, 7]))),
            "beat": (2, lambda: []),
            "nudge": (3, lambda: [random.randint(0, 2)]),
            "cons_in": (1, lambda: numbers(random, random.randrange(11))),
            "rb_cast": (1, lambda: numbers(random, random.randrange(12))),
        }
    else:
        tree = samples.group(nodes=nodes, ticks=ticks)
        calls = {
            "cast": (5, lambda: [random.choice([0, 0, 0, 1, 1, 2, 3]), random.choice([0, 1, 2, 9])]),
            "beat": (2, lambda: []),
            "nudge": (2, lambda: [random.randint(0, 3)]),
            "ask": (1, lambda: [random.randrange(2 ** nodes)]),
        }
    names, weights = list(calls), [weight for weight, _ in calls.values()]
    for _ in range(random.randint(8, 30) if wide else random.randint(1, 10)):
        name = random.choices(names, weights)[0]
        tree["do"].append({"tick": random.randint(1, max(1, ticks // 2)), "node": random.randrange(nodes), "event": name,
                           "args": calls[name][1]()})
    add_losses_and_crashes(random, tree)
    return tree


def tiny(random):
    tree = stack(random, random.choice(["consensus", "group", "group"]))
    own = tree["decls"][0]
    own["budget"] = random.choice([1, 2, 3, 4, 6, 64])
    if random.random() < 0.3:
        micros = own.pop("micros")
        own["form"] = "bound"
        kept = [micro for micro in micros if random.random() < 0.9] or micros[:1]
        own["bounds"] = [{"micro": micro, "calls": random.choice([1, 2, 3, 8])} for micro in kept]
    elif random.random() < 0.3:
        own["micros"].remove(random.choice(own["micros"]))
    if random.random() < 0.5:
        for _ in range(3):
            tree["do"].append({"tick": 1, "node": 0, "event": random.choice(tree["events"])["name"],
                               "args": numbers(random, random.randrange(13))})
    if tree.get("changes") and random.random() < 0.4:
        tree["do"].append({"tick": random.randint(1, tree["ticks"]), "node": random.randrange(tree["nodes"]),
                           "change": random.choice(tree["changes"])["name"], "args": [number(random)]})
    return tree


def valid_tree(random, most_computations=400, form=None):
    """The tree of a script that is accepted and has at most so many computations."""
    while True:
        drawn = form or random.choice(DRAWN_FORMS)
        if drawn in ("prog", "mixed"):
            tree = wired(random, drawn == "mixed")
        elif drawn == "tiny":
            tree = tiny(random)
        else:
            tree = stack(random, drawn)
        try:
            script = scripts.read_script(samples.text(tree).encode())
        except scripts.Fault:
            continue
        if not history(script, most_computations).limited:
            return tree


# Bent trees and texts.

class Raw(str):
    """Text that is put into a JSON text as it stands."""


RAW_VALUES = [
    "1.0", "1e0", "-0", "-1", "0.5", "18446744073709551616", "1E400", "01", "1.", "-", "nul", "true", "null", '"\\ud800"',
    '"\\u0061"', '"\\u00"', "{}", "[]", '""', '"A"', '"aaaaaaaaaaaaaaaaa"', '"aaaaaaaaaaaaaaaa"', '"a.b"', '"a.b.c"', '"a."',
    '"_a"', '"9a"', '"a b"', '"zz"', '"zz.zz"', "0", "1", "2", "3", "31", "32", "33", "256", "257", "10001",
    "18446744073709551615", "NaN", "[1]", '["zz"]', '{"a":1}', '"\\n"', '"\t"', "+1", "1e-400", "9" * 310, "9" * 308,
]
KEYS = ["x", "event", "change", "handlers", "micros", "bounds", "roots", "edges", "budget", "nums", "ports", "changes", "args",
        "kind", "form"]
WORDS = ["zz", "set", "route", "link", "repl", "cast", "recv"]
LENGTHS = [4, 5, 9, 12, 13, 16, 17, 24, 25, 32, 33, 65, 257]
NUMBERS = [0, 1, 2, 3, 4, 5, 8, 9, 16, 17, 20, 21, 31, 32, 256, 257, 10000, 10001, 2 ** 64 - 1]


def bent_text(value):
    """The compact text of a tree, with raw values as they stand and the keys in their order."""
    if isinstance(value, Raw):
        return str(value)
    if isinstance(value, dict):
        return "{" + ",".join(f"{samples.text(key)}:{bent_text(own)}" for key, own in value.items()) + "}"
    if isinstance(value, list):
        return "[" + ",".join(map(bent_text, value)) + "]"
    return samples.text(value)


def spots(tree):
    """All pairs of a list or object of the tree and a position or key in it."""
    if isinstance(tree, (dict, list)):
        for key, value in list(tree.items() if isinstance(tree, dict) else enumerate(tree)):
            yield tree, key
            yield from spots(value)


def bend_tree(random, tree):
    """Changes a tree in one spot: a key or value is put in, taken out, exchanged or repeated."""
    def chosen(form):
        found = [(parent, key) for parent, key in every if isinstance(parent[key], form)]
        return random.choice(found) if found else None

    def part(form):
        spot = chosen(form)
        return tree if spot is None and isinstance(tree, form) else spot and spot[0][spot[1]]

    every = list(spots(tree))
    what = random.choice(["take", "put", "exchange", "exchange", "exchange", "repeat", "fill", "empty", "copy", "rename",
                          "number", "shuffle"])
    if what == "exchange":
        parent, key = random.choice(every)
        parent[key] = Raw(random.choice(RAW_VALUES))
    elif what in ("take", "put"):
        own = random.choice([tree, part(dict)])
        if what == "take" and own:
            del own[random.choice(list(own))]
        else:
            own[random.choice(KEYS)] = random.choice([Raw(random.choice(RAW_VALUES)), [], [1], 1, "a", {}])
    elif what in ("repeat", "fill", "empty", "shuffle"):
        own = part(list)
        if not own:
            return
        one = copy.deepcopy(random.choice(own))
        if what == "repeat":
            own.append(one)
        elif what == "empty":
            own.clear()
        elif what == "shuffle":
            random.shuffle(own)
        else:
            own[:] = [copy.deepcopy(one) for _ in range(random.choice(LENGTHS))]
            if isinstance(one, dict) and "name" in one and random.random() < 0.7:
                for at, value in enumerate(own):
                    value["name"] = f"n{at}"
    elif what in ("copy", "rename"):
        spot, other = chosen(str), chosen(str)
        if spot:
            parent, key = spot
            name = parent[key]
            parent[key] = other[0][other[1]] if what == "copy" else random.choice(
                WORDS + [name + "z", "zz." + name, name + ".zz"])
    elif spot := chosen(int):
        spot[0][spot[1]] = random.choice(NUMBERS)


def bend_text(random, text):
    """Changes a few bytes of a text, or puts something about it."""
    data = text.encode()
    where = random.randrange(len(data) + 1)
    match random.randrange(11):
        case 0:
            return data[:where]
        case 1:
            return data[:where] + random.choice([b",", b":", b"}", b"]", b"{", b"[", b'"', b"\\", b" ", b"\t", b"\r", b"0",
                                                 b"-", b"\x00", b"\xff", b"\xc3\xa9", b"/**/"]) + data[where:]
        case 2:
            return data[:where] + data[where + 1:]
        case 3:
            return b"\xef\xbb\xbf" + data
        case 4:
            return b" \t\r" + data + b" \t\r"
        case 5:
            return data + random.choice([b"x", b"{}", b"null", b",", b"\x00"])
        case 6:
            depth = random.choice([126, 127, 128, 200])
            return data[:-1] + b',"x":' + b"[" * depth + b"]" * depth + b"}"
        case 7:   # a key a second time, which counts
            return data[:-1] + b"," + random.choice([b'"version":1', b'"version":3', b'"nodes":1', b'"nodes":"a"', b'"do":[]',
                                                     b'"ticks":2', b'"\\u0064o":[]', b'"micros":[]']) + b"}"
        case 8:   # a key before the one that counts
            return b'{"do":' + random.choice([b"1", b"null", b"1e999", b'"\\ud800"', b"[[[]]]"]) + b"," + data[1:]
        case 9:
            return re.sub(rb'"([a-z])', lambda found: b'"\\u00%02x' % found.group(1)[0] if random.random() < 0.1
                          else found.group(0), data)
    return bytes(byte if random.random() > 0.002 else random.randrange(256) for byte in data)


def bent(random, most_computations=400, form=None):
    """A text that was made from a valid script; most have a fault. Those that hold a script have at most so many
    computations. It has no line feed."""
    while True:
        tree = valid_tree(random, most_computations, form)
        if random.random() < 0.75:
            tree = copy.deepcopy(tree)
            for _ in range(random.choice([1, 1, 1, 2, 3])):
                bend_tree(random, tree)
            data = bent_text(tree).encode()
        else:
            data = bend_text(random, samples.text(tree))
        data = data.replace(b"\n", b" ")
        try:
            if history(scripts.read_script(data), most_computations).limited:
                continue
        except scripts.Fault:
            pass
        return data


def texts(random, count, per_cent_bent=0, most_computations=400, form=None):
    """Texts, each on one line; of a hundred so many are bent."""
    for _ in range(count):
        if random.randrange(100) < per_cent_bent:
            yield bent(random, most_computations, form)
        else:
            yield samples.text(valid_tree(random, most_computations, form)).encode()


def changed_journal(random, lines):
    """The lines of a journal with one taken out, put in a second time, exchanged with another, or bent."""
    lines = list(lines)
    spot, other = random.randrange(len(lines)), random.randrange(len(lines))
    match random.randrange(4):
        case 0:
            del lines[spot]
        case 1:
            lines.insert(spot, lines[other])
        case 2:
            lines[spot], lines[other] = lines[other], lines[spot]
        case 3:
            lines[spot] = random.choice([b"x", b"b 1", b"a 01", b"e 1 99", b"n 0", b"r 1 0", b"l 4294967296", b""])
    return lines
