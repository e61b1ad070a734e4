"""The proof files of samoa_grammar: faults of a script's tree, and what a tree means that has none.

Each table has trees, and beside each the fault that script.py finds, or None."""
import json_text
import proof_terms as terms
import samples
import script

LINK = {"name": "l", "kind": "link", "ports": ["e"]}
CODE = {"name": "h", "code": []}
CODE_G = {"name": "g", "code": []}
PROG = {"name": "a", "kind": "prog", "ports": ["e"], "changes": ["c"], "handlers": [CODE, CODE_G]}
SET = {"name": "s", "form": "set", "micros": ["a"]}
BOUND_ITEM = {"micro": "a", "calls": 3}
BOUND = {"name": "b", "form": "bound", "bounds": [BOUND_ITEM]}
ROUTE = {"name": "r", "form": "route", "roots": ["a.h"], "edges": [["a.h", "a.g"]]}
EVENT = {"name": "e", "decl": "s", "handlers": ["a.h"]}
ROW = {"event": "e", "handlers": ["a.g"]}
CHANGE = {"name": "c", "event": "e", "table": [ROW]}
ITEM = {"tick": 1, "node": 0, "event": "e"}
LOSS = {"from": 0, "to": 1, "first": 0, "last": 9}
CRASH = {"node": 1, "tick": 2}
PLAIN = {
    "version": 1, "nodes": 2, "ticks": 3, "micros": [PROG, LINK], "decls": [SET], "events": [EVENT], "changes": [CHANGE],
}

PARTS = {
    "handler_h": CODE, "handler_g": CODE_G, "micro_a": PROG, "micro_l": LINK, "set_s": SET, "bound_of_a": BOUND_ITEM,
    "bound_b": BOUND, "route_r": ROUTE, "event_e": EVENT, "row_e": ROW, "change_c": CHANGE, "item_e": ITEM,
    "loss_of_all": LOSS, "crash_of_1": CRASH, "plain": PLAIN,
}

# By the sort of an object: the key under which its list stands, the definition that tests it, and what tests it in script.py.
OBJECTS = {
    "code": ("handlers", "code_fault", "handler"),
    "micro": ("micros", "micro_fault", "micro"),
    "bound": ("bounds", "bound_fault", "bound"),
    "decl": ("decls", "decl_fault", "declaration"),
    "event": ("events", "event_fault", "event"),
    "table": ("table", "table_fault", "row"),
    "change": ("changes", "change_fault", "change"),
    "do": ("do", "do_fault", "item"),
    "loss": ("lose", "loss_fault", "loss"),
    "crash": ("crash", "crash_fault", "crash"),
}
# What has to be opened for the proof of each, where that isn't the definition alone.
OPENED = {"micro_fault": "micro_fault code_fault instr_in", "code_fault": "code_fault instr_in",
          "decl_fault": "decl_fault bound_fault", "change_fault": "change_fault table_fault"}
FAULTS = ("micro_fault", "code_fault", "bound_fault", "decl_fault", "event_fault", "table_fault", "change_fault", "do_fault",
          "loss_fault", "crash_fault")
DRAFTS = ("micro_of", "code_of", "bound_of", "decl_of", "event_of", "table_of", "change_of", "do_of", "loss_of", "crash_of")
PASSES = ("twice_fault", "unknown_fault", "totals_fault")
MEANT = ("micro_meant", "decl_meant", "event_meant", "table_meant", "change_meant", "do_meant")
WALK = " ".join(["walk_fault", "form_of_all", "draft_of", *PASSES, *FAULTS, *DRAFTS, "instr_in"])
MEANING = " ".join(["script_meant", "script_of", "draft_of", *DRAFTS, *MEANT, "instr_in"])

IMPORTS = [
    ("Rattle.std.specs.Prelude",
     ["◌≡◌", "negsuc", "true", "List", "[]", "◌∷◌", "codes", "map", "Option", "Some", "None", "refl"]),
    ("Rattle.serde_json.specs.Data", ["Data", "null", "boolean", "number", "negative"]),
    ("Rattle.samoa_model.specs.declared.setup.Place.TheVariants", ["Reg", "Local"]),
    ("Rattle.samoa_model.specs.declared.setup.Instr", ["Instr"]),
    ("Rattle.samoa_model.specs.declared.setup.Instr.TheVariants", "instr"),
    ("Rattle.samoa_model.specs.declared.setup.Kind.TheVariants", "kinds"),
    ("Rattle.samoa_model.specs.declared.record.Cause.TheVariants", "causes"),
    ("Rattle.samoa_model.specs.declared.script.Decl", ["Decl"]),
    ("Rattle.samoa_model.specs.declared.script.Script", ["Script"]),
    ("Rattle.samoa_grammar.specs.declared.fault.WalkFault", ["WalkFault"]),
    ("Rattle.samoa_grammar.specs.Held", ["walk_fault", "script_meant"]),
    ("Rattle.samoa_grammar.specs.Instrs", ["instr_in"]),
    ("Rattle.samoa_grammar.specs.Forms", ["form_of_all", "draft_of", *FAULTS, *DRAFTS]),
    ("Rattle.samoa_grammar.specs.Passes", PASSES),
    ("Rattle.samoa_grammar.specs.Meaning", ["script_of", *MEANT]),
    ("Rattle.samoa_grammar.proofs.ReferenceParts", list(PARTS)),
    ("Rattle.samoa_grammar.proofs.RouteFaults", ["route_fault", "route_fault_is"]),
    ("Rattle.samoa_grammar.proofs.ReferenceTrees",
     ["event", "change", "handler", "node", "str", "num", "arr", "obj", "but", "without", "times", "missing", "wrong",
      "unknown", "twice", "over", "Answers"]),
]


def other(text):
    return json_text.OtherValue(text)


# ---- tables

def fault_of(test):
    """The line of the fault that a test raises, or None."""
    try:
        test()
    except script.Fault as found:
        return found.line
    return None


def whole_fault(tree):
    return fault_of(lambda: script.read_script(samples.text(tree).encode()))


def object_fault(sort, value):
    key, _, method = OBJECTS[sort]
    return fault_of(lambda: getattr(script.FormPass(), method)(value, key))


def parts_of(names):
    """The trees that a table's trees are written by, and their names."""
    return {name: PARTS[name] for name in names}


def parts_file():
    known = {}
    out = []
    for name, part in PARTS.items():
        out.append(f"abbrev pub {name} : Data\n{name} = {terms.tree(part, known)}\n")
        known[name] = part
    head = "The parts of a small script, by which the trees of other files in this folder are written."
    return terms.file(head, "\n".join(out), IMPORTS)


def table(name, note, test, opened, values, parts):
    """The lemma of a table: `values` has pairs of a tree and its fault, or a note in the place of a pair."""
    lines = []
    held = ""
    for value in values:
        if isinstance(value, str):
            held = f"-- {value}\n"
            continue
        tree, line = value
        lines.append(f"{held}({terms.tree(tree, parts)}, {terms.fault(line)})")
        held = ""
    return (f"-- {note}\n{name} : Answers {terms.argument(test)} (\n{terms.rows(lines)})\n"
            f"unfolding {opened}\n{name} = refl\n")


def with_faults(values, test):
    """Trees with their faults, and the notes between them."""
    return [value if isinstance(value, str) else (value, test(value)) for value in values]


def object_table(name, note, sort, values, parts):
    key, function, _ = OBJECTS[sort]
    found = with_faults(values, lambda value: object_fault(sort, value))
    return table(name, note, f'{function} (codes "{key}")', OPENED.get(function, function), found, parts)


def pass_table(name, note, number, values, parts):
    """A table of a pass after the first, over trees that are well formed."""
    test = (script.twice_pass, script.unknown_pass, script.totals_pass)[number]
    found = with_faults(values, lambda value: fault_of(lambda: test(script.FormPass().top(value))))
    opened = " ".join([PASSES[number], "draft_of", *DRAFTS, "instr_in"])
    return table(name, note, f"λ d. {PASSES[number]} (draft_of d)", opened, found, parts)


def whole_table(name, note, values, parts):
    found = with_faults(values, whole_fault)
    return table(name, note, "walk_fault", WALK, found, parts)


# ---- the form of each object

LONG_NAME = "abcdefghijklmnopq"

NAMES = [
    "names have up to sixteen small letters, digits and _, and begin with a letter",
    {**CODE, "name": 5}, {**CODE, "name": ""}, {**CODE, "name": LONG_NAME}, {**CODE, "name": LONG_NAME[:16]},
    {**CODE, "name": "a_9z"}, {**CODE, "name": "9"}, {**CODE, "name": "_a"}, {**CODE, "name": "A"}, {**CODE, "name": "a-b"},
    {**CODE, "name": "a.b"},
]


def without(value, key):
    return {own: part for own, part in value.items() if own != key}


HANDLER_ROWS = [
    *NAMES, "keys", without(CODE, "name"), without(CODE, "code"), {**CODE, "more": 1}, [], other("null"),
    "a list of instructions, 32 at most; the form of its items comes before its length",
    {**CODE, "code": {}}, {**CODE, "code": [[]]}, {**CODE, "code": [["done", 1]] * 32}, {**CODE, "code": [["done", 1]] * 33},
    {**CODE, "code": [["done", 5]] * 33},
]

MICRO_ROWS = [
    LINK, PROG, {"name": "l", "kind": "link"},
    "every kind, and none",
    *({**LINK, "kind": kind} for kind in script.KINDS[2:]), {**LINK, "kind": "linked"}, {**LINK, "kind": 1},
    without(LINK, "kind"),
    "handlers belong to the scripted kind, and to a kind that isn't known",
    {**LINK, "handlers": [CODE]}, {**PROG, "kind": "x"}, without(PROG, "kind"), without(PROG, "handlers"),
    {**PROG, "handlers": []}, {**PROG, "handlers": 5}, {**PROG, "handlers": [CODE] * 16}, {**PROG, "handlers": [CODE] * 17},
    {**PROG, "handlers": [CODE, 5]}, {**PROG, "handlers": [CODE, without(CODE, "code")]},
    "other keys",
    without(LINK, "name"), {**LINK, "name": "L"}, {**LINK, "form": "set"}, [LINK],
    "lists with a limit",
    {**LINK, "nums": [2 ** 64 - 1] * 12}, {**LINK, "nums": [0] * 13}, {**LINK, "nums": [other("-1")]}, {**LINK, "nums": 1},
    {**LINK, "nums": []},
    {**LINK, "ports": ["e"] * 16}, {**LINK, "ports": ["e"] * 17}, {**LINK, "ports": [1] * 17}, {**LINK, "ports": "e"},
    {**LINK, "changes": ["c"] * 16}, {**LINK, "changes": ["c"] * 17}, {**LINK, "changes": ["c", ""]},
    {**LINK, "changes": []},
    "the first key of the table that has a fault tells it",
    {"ports": 1, "nums": 1, "changes": 1, "kind": "link", "name": "l"},
    {"ports": 1, "changes": 1, "kind": "link", "name": "l"}, {"kind": 1, "name": 1},
]

DECL_ROWS = [
    SET, BOUND, ROUTE, "the form, and the keys of each",
    without(SET, "form"), {**SET, "form": "sets"}, {**SET, "form": []}, {**SET, "bounds": []}, {**BOUND, "edges": []},
    {**ROUTE, "micros": []}, {"name": "d", "form": "x", "micros": [], "bounds": [], "roots": [], "edges": []},
    {"name": "d", "micros": [], "bounds": [], "roots": [], "edges": []}, {**SET, "other": 1},
    "the name and the budget",
    without(SET, "name"), {**SET, "name": 1}, {**SET, "budget": 1}, {**SET, "budget": 0}, {**SET, "budget": 256},
    {**SET, "budget": 257}, {**SET, "budget": "1"},
    "a set",
    without(SET, "micros"), {**SET, "micros": []}, {**SET, "micros": ["a"] * 24}, {**SET, "micros": ["a"] * 25},
    {**SET, "micros": [1]},
    "a bound",
    without(BOUND, "bounds"), {**BOUND, "bounds": []}, {**BOUND, "bounds": [BOUND_ITEM] * 24},
    {**BOUND, "bounds": [BOUND_ITEM] * 25}, {**BOUND, "bounds": ["a"]}, {**BOUND, "bounds": [{"micro": "a"}]},
    "a route",
    without(ROUTE, "roots"), {**ROUTE, "roots": []}, {**ROUTE, "roots": ["a.h"] * 32}, {**ROUTE, "roots": ["a.h"] * 33},
    {**ROUTE, "roots": ["a"]}, {**ROUTE, "roots": ["a.h.h"]}, {**ROUTE, "roots": ["a."]}, {**ROUTE, "roots": [".h"]},
    {**ROUTE, "roots": [1]},
    without(ROUTE, "edges"), {**ROUTE, "edges": [["a.h", "a.g"]] * 256}, {**ROUTE, "edges": [["a.h", "a.g"]] * 257},
    {**ROUTE, "edges": [["a.h"]]}, {**ROUTE, "edges": [["a.h", "a.g", "a.g"]]}, {**ROUTE, "edges": [["a.h", "g"]]},
    {**ROUTE, "edges": [["h", "a.g"]]}, {**ROUTE, "edges": {}}, {**ROUTE, "edges": [1]},
]

BOUND_ROWS = [
    BOUND_ITEM, without(BOUND_ITEM, "micro"), {**BOUND_ITEM, "micro": 1}, without(BOUND_ITEM, "calls"),
    {**BOUND_ITEM, "calls": 1}, {**BOUND_ITEM, "calls": 0}, {**BOUND_ITEM, "calls": 256}, {**BOUND_ITEM, "calls": 257},
    {**BOUND_ITEM, "calls": other("true")}, {**BOUND_ITEM, "budget": 1},
]

EVENT_ROWS = [
    EVENT, {**EVENT, "handlers": []}, without(EVENT, "name"), {**EVENT, "name": 1}, without(EVENT, "decl"),
    {**EVENT, "decl": []},
    without(EVENT, "handlers"), {**EVENT, "handlers": ["a.h"] * 4}, {**EVENT, "handlers": ["a.h"] * 5},
    {**EVENT, "handlers": ["a"]}, {**EVENT, "event": "e"},
]

TABLE_ROWS = [
    ROW, without(ROW, "event"), {**ROW, "event": 1}, without(ROW, "handlers"), {**ROW, "handlers": ["a.h"] * 4},
    {**ROW, "handlers": ["a.h"] * 5}, {**ROW, "handlers": ["h"]}, {**ROW, "name": "e"},
]

CHANGE_ROWS = [
    CHANGE, without(CHANGE, "name"), {**CHANGE, "name": 1}, without(CHANGE, "event"), {**CHANGE, "event": 1},
    without(CHANGE, "table"), {**CHANGE, "table": []}, {**CHANGE, "table": [ROW] * 16}, {**CHANGE, "table": [ROW] * 17},
    {**CHANGE, "table": [1]}, {**CHANGE, "table": [ROW, without(ROW, "event")]}, {**CHANGE, "handlers": []},
]

ITEM_ROWS = [
    ITEM, {"tick": 1, "node": 0, "change": "c"}, "one of event and change", {**ITEM, "change": "c"}, without(ITEM, "event"),
    {**ITEM, "event": 1}, {"tick": 1, "node": 0, "change": 1}, "ticks begin at 1, nodes at 0",
    without(ITEM, "tick"), {**ITEM, "tick": 0}, {**ITEM, "tick": 2 ** 64 - 1}, without(ITEM, "node"), {**ITEM, "node": "0"},
    {**ITEM, "node": 2 ** 64 - 1}, "arguments", {**ITEM, "args": [1] * 12}, {**ITEM, "args": [1] * 13},
    {**ITEM, "args": ["1"]}, {**ITEM, "args": []}, {**ITEM, "arg": 1},
]

LOSS_ROWS = [LOSS, *(without(LOSS, key) for key in LOSS), *({**LOSS, key: "1"} for key in LOSS), {**LOSS, "node": 0}]
CRASH_ROWS = [CRASH, *(without(CRASH, key) for key in CRASH), *({**CRASH, key: "1"} for key in CRASH), {**CRASH, "to": 0}]

OBJECT_TABLES = [
    ("faults_of_handlers", "a handler of a microprotocol", "code", HANDLER_ROWS, ["handler_h"]),
    ("faults_of_microprotocols", "a microprotocol", "micro", MICRO_ROWS, ["handler_h", "handler_g", "micro_a", "micro_l"]),
    ("faults_of_bounds", "an item of bounds", "bound", BOUND_ROWS, ["bound_of_a"]),
    ("faults_of_declarations", "a declaration", "decl", DECL_ROWS, ["set_s", "bound_of_a", "bound_b", "route_r"]),
    ("faults_of_events", "an event", "event", EVENT_ROWS, ["event_e"]),
    ("faults_of_rows", "a row of a change's table", "table", TABLE_ROWS, ["row_e"]),
    ("faults_of_changes", "a change of bindings", "change", CHANGE_ROWS, ["row_e", "change_c"]),
    ("faults_of_items", "an item of do", "do", ITEM_ROWS, ["item_e"]),
    ("faults_of_losses", "a loss", "loss", LOSS_ROWS, ["loss_of_all"]),
    ("faults_of_crashes", "a crash", "crash", CRASH_ROWS, ["crash_of_1"]),
]


def tables(rows, maker):
    return "\n".join(maker(*table, parts_of(names)) for *table, names in rows)


def objects_file():
    head = "The form of each object of a script: trees, and beside each the fault that the reference program finds in it."
    return terms.file(head, tables(OBJECT_TABLES, object_table), IMPORTS)


# ---- instructions

INSTRUCTIONS = [
    ["set", "r0", 7], ["set", "x3", 2 ** 64 - 1], ["set", "r4", 1], ["set", "y0", 1], ["set", "r", 1], ["set", "r00", 1],
    ["set", 0, 1], ["set", "r0", "1"], ["set", "r0"], ["set", "r0", 1, 1],
    ["copy", "x1", "r2"], ["copy", "x1", 1], ["copy", "r9", "r2"], ["add", "r3", "x0"], ["add", "r3", 1],
    ["sub", "x2", "r1"], ["sub", 1, "r1"],
    ["less", "x0", "x1", 1], ["less", "r0", "r1", 31], ["less", "r0", "r1", 0], ["less", "r0", "r1", 32],
    ["less", "r0", "r1"], ["less", "r0", 1, 1], ["less", 1, "r0", 1], ["less", "r0", "r1", "1"],
    ["call", 15, 4], ["call", 0, 5], ["call", "x0", 1], ["call", 0],
    ["later", 1, 0], ["later", 1, 5], ["later", "x0", 0],
    ["send", "x3", 2, 4], ["send", "x3", 2, 5], ["send", 3, 2, 4], ["send", "x3", "2", 4], ["send", "x3", 2],
    ["deliver", 4], ["deliver", 5], ["deliver", "x0"], ["deliver"], ["change", 0, 3], ["change", 0, 5], ["change", "x0", 3],
    ["done", 0], ["done", 5], ["done", 1, 1], ["done"],
    ["stop", 1], ["Done", 1], [1, 1], [[]], [], {}, "done", 5, ["done", other("-1")], ["call", 0, 0, 0, 0],
]


def instructions_file():
    lines = []
    for value in INSTRUCTIONS:
        read = f"Some ({terms.instruction(value)})" if script.is_instruction(value) else "None"
        lines.append(f"({terms.tree(value, {})}, {read})")
    body = ("-- each tree is read as what stands beside it\n"
            "abbrev Reads : List (Data × Option Instr) → Type 0\n"
            "Reads rows = map (λ row. instr_in row.0) rows ≡ map (λ row. row.1) rows\n\n"
            f"instructions_and_what_is_none : Reads (\n{terms.rows(lines)})\n"
            "unfolding instr_in\ninstructions_and_what_is_none = refl\n")
    head = "Instructions: trees, and beside each the instruction that the reference program reads in it, or none."
    return terms.file(head, body, IMPORTS)


# ---- names

def route(roots=("a.h",), edges=()):
    return {**ROUTE, "roots": list(roots), "edges": [list(edge) for edge in edges]}


def micros(*values):
    return {**PLAIN, "micros": list(values)}


def with_decls(*values):
    return {**PLAIN, "decls": [SET, *values]}


TWICE_ROWS = [
    PLAIN, micros(PROG, LINK, PROG), micros({**PROG, "handlers": [CODE, CODE_G, CODE]}, LINK), with_decls(SET),
    {**PLAIN, "events": [EVENT, EVENT]}, {**PLAIN, "changes": [CHANGE, CHANGE]},
    with_decls({**SET, "name": "t", "micros": ["a", "l", "a"]}),
    with_decls({**BOUND, "bounds": [BOUND_ITEM, {"micro": "a", "calls": 1}]}),
    {**PLAIN, "events": [{**EVENT, "handlers": ["a.h", "a.g", "a.h"]}]},
    {**PLAIN, "changes": [{**CHANGE, "table": [ROW, ROW]}]},
    {**PLAIN, "changes": [{**CHANGE, "table": [{**ROW, "handlers": ["a.g", "a.g"]}]}]},
    "of two names that stand twice, that whose second place comes first",
    micros(PROG, LINK, LINK, PROG),
    "allowed: handlers of two microprotocols, ports, changes, and the parts of a route, which are taken once",
    micros(PROG, LINK, {**PROG, "name": "b"}), micros({**PROG, "ports": ["e", "e"], "changes": ["c", "c"]}, LINK),
    with_decls(route(["a.h", "a.h"], [["a.h", "a.g"], ["a.h", "a.g"]])),
    "groups of names, in their order",
    {**micros(PROG, PROG), "decls": [SET, SET]}, {**micros({**PROG, "handlers": [CODE, CODE]}), "decls": [SET, SET]},
    {**with_decls(SET), "events": [EVENT, EVENT]}, {**PLAIN, "events": [EVENT, EVENT], "changes": [CHANGE, CHANGE]},
    {**with_decls({**SET, "name": "t", "micros": ["l", "l"]}), "events": [{**EVENT, "handlers": ["a.h", "a.h"]}]},
    {**PLAIN, "events": [{**EVENT, "handlers": ["a.h", "a.h"]}], "changes": [{**CHANGE, "table": [ROW, ROW]}]},
    {**PLAIN, "changes": [{**CHANGE, "table": [{**ROW, "handlers": ["a.g", "a.g"]}]},
                          {**CHANGE, "name": "d", "table": [ROW, ROW]}]},
]

UNKNOWN_ROWS = [
    micros({**PROG, "ports": ["e", "f"]}, LINK), micros({**PROG, "changes": ["c", "d"]}, LINK),
    with_decls({**SET, "name": "t", "micros": ["a", "m"]}), with_decls({**BOUND, "bounds": [{"micro": "m", "calls": 1}]}),
    with_decls(route(["m.h"])), with_decls(route(["a.k"])), with_decls(route(["l.h"])), with_decls(route(["l.recv"])),
    with_decls(route(["a.h"], [["a.k", "a.g"]])), with_decls(route(["a.h"], [["a.h", "m.g"]])),
    {**PLAIN, "events": [{**EVENT, "decl": "t"}]}, {**PLAIN, "events": [{**EVENT, "handlers": ["a.h", "a.k"]}]},
    {**PLAIN, "changes": [{**CHANGE, "event": "f"}]}, {**PLAIN, "changes": [{**CHANGE, "table": [{**ROW, "event": "f"}]}]},
    {**PLAIN, "changes": [{**CHANGE, "table": [{**ROW, "handlers": ["a.k"]}]}]},
    {**PLAIN, "do": [{**ITEM, "event": "f"}]}, {**PLAIN, "do": [{"tick": 1, "node": 0, "change": "d"}]},
    {**PLAIN, "do": [{"tick": 1, "node": 0, "change": "c"}]},
    "groups of names, in their order",
    {**micros({**PROG, "ports": ["f"], "changes": ["d"]}, LINK), "decls": [{**SET, "micros": ["m"]}]},
    {**PLAIN, "decls": [{**SET, "micros": ["m"]}], "events": [{**EVENT, "decl": "t"}]},
    {**PLAIN, "events": [{**EVENT, "decl": "t", "handlers": ["a.k"]}], "changes": [{**CHANGE, "event": "f"}]},
    {**PLAIN, "changes": [{**CHANGE, "event": "f"}], "do": [{**ITEM, "event": "g"}]},
]

SCRIPT_PARTS = ["handler_h", "handler_g", "micro_a", "micro_l", "set_s", "event_e", "row_e", "change_c", "plain"]
NAME_PARTS = ["bound_of_a", "bound_b", "route_r", "item_e", *SCRIPT_PARTS]


def names_file():
    head = ("Names of a script: trees that are well formed, and beside each the fault that the reference program finds in its "
            "names.")
    rows = [("repeated_names", "names that stand twice", 0, TWICE_ROWS, NAME_PARTS),
            ("unknown_names", "names that aren't defined", 1, UNKNOWN_ROWS, NAME_PARTS)]
    return terms.file(head, tables(rows, pass_table), IMPORTS)


# ---- positions and totals

def of_kind(kind, ports):
    return {**LINK, "kind": kind, "ports": ["e"] * ports}


def several(kind, count):
    """A script of eight nodes with so many microprotocols of a kind, of one name, which this pass doesn't test."""
    own = PROG if kind == "prog" else of_kind(kind, script.LEAST_PORTS[kind])
    return {**micros(*[own] * count), "nodes": 8}


def in_code(*instruction):
    return micros({**PROG, "handlers": [CODE, {**CODE_G, "code": [["done", 0], list(instruction)]}]}, LINK)


PORT_ROWS = [
    *(micros(of_kind(kind, least - 1)) for kind, least in script.LEAST_PORTS.items() if least),
    *(micros(of_kind(kind, least)) for kind, least in script.LEAST_PORTS.items() if least), micros({**PROG, "ports": []}),
]
POSITION_ROWS = [
    in_code("call", 0, 1), in_code("call", 1, 1), in_code("later", 0, 1), in_code("later", 1, 1),
    in_code("send", "x0", 0, 1),
    in_code("send", "x0", 1, 1), in_code("change", 0, 1), in_code("change", 1, 1), in_code("call", 2 ** 64 - 1, 0),
]
NODE_ROWS = [
    {**PLAIN, "do": [{**ITEM, "node": 2}]}, {**PLAIN, "do": [{**ITEM, "tick": 4}]},
    {**PLAIN, "do": [{**ITEM, "node": 1, "tick": 3}]},
    {**PLAIN, "lose": [{**LOSS, "from": 2}]}, {**PLAIN, "lose": [{**LOSS, "to": 2}]},
    {**PLAIN, "lose": [{**LOSS, "first": 10}]},
    {**PLAIN, "crash": [{**CRASH, "node": 2}]}, {**PLAIN, "crash": [{**CRASH, "tick": 99}]},
]
KIND_ROWS = [*(several(kind, 5) for kind in script.KINDS), several("prog", 4), several("views", 4)]
ORDER_ROWS = [
    {**micros({**PROG, "handlers": [{**CODE, "code": [["call", 1, 1]]}]}, of_kind("fd", 1)), "nodes": 8},
    {**in_code("call", 1, 1), "do": [{**ITEM, "node": 2}]}, {**PLAIN, "do": [{**ITEM, "tick": 4}, {**ITEM, "node": 2}]},
    {**PLAIN, "do": [{**ITEM, "tick": 4}], "lose": [{**LOSS, "to": 2, "from": 2}], "crash": [{**CRASH, "node": 3}]},
    {**PLAIN, "do": [{**ITEM, "tick": 4}], "crash": [{**CRASH, "node": 2}]},
    {**several("fd", 5), "do": [{**ITEM, "tick": 4}]},
    {**micros(*several("views", 5)["micros"], *several("prog", 5)["micros"]), "nodes": 8},
]


def totals_file():
    head = ("Positions and totals of a script: trees whose names are defined, and beside each the fault that the reference "
            "program finds then.")
    rows = [("ports_that_are_needed", "the ports that each kind needs", 2, PORT_ROWS, SCRIPT_PARTS),
            ("positions_in_code", "ports and changes that code speaks of", 2, POSITION_ROWS, SCRIPT_PARTS),
            ("nodes_and_ticks_in_range", "nodes and ticks", 2, NODE_ROWS,
             ["item_e", "loss_of_all", "crash_of_1", *SCRIPT_PARTS]),
            ("microprotocols_in_all", "nodes times the microprotocols of a kind", 2, KIND_ROWS, SCRIPT_PARTS),
            ("first_group_that_has_a_fault", "faults of two groups of tests, of which the first group tells its own", 2,
             ORDER_ROWS, ["item_e", "loss_of_all", "crash_of_1", *SCRIPT_PARTS])]
    return terms.file(head, tables(rows, pass_table), IMPORTS)


# ---- routes of many handlers

WIDE = {"name": "w", "kind": "prog", "handlers": [{**CODE, "name": letter} for letter in "abcdefghijklmnop"]}
THREE_WIDE = {**PLAIN, "micros": [{**WIDE, "name": name} for name in "wxy"]}
ROUTE_OF_32 = {"name": "r", "form": "route", "roots": [],
               "edges": [[f"w.{letter}", f"x.{letter}"] for letter in "abcdefghijklmnop"]}


def route_lemma(name, roots):
    """The lemma on the fault of that route with other roots."""
    route = {**ROUTE_OF_32, "roots": roots}
    found = fault_of(lambda: script.totals_pass(script.FormPass().top({**THREE_WIDE, "decls": [route]})))
    term = terms.argument(terms.tree(route, {"route_of_32": ROUTE_OF_32}))
    opened = " ".join(["draft_of", *DRAFTS, "instr_in"])
    return (f"{name} : route_fault three_wide {term} ≡ {terms.fault(found)}\nunfolding {opened}\n"
            f"{name} = route_fault_is three_wide {term} refl refl\n")


def routes_file():
    known = {"handler_h": CODE, "plain": PLAIN}
    out = []
    for name, part in (("wide_w", WIDE), ("three_wide", THREE_WIDE), ("route_of_32", ROUTE_OF_32)):
        out.append(f"abbrev {name} : Data\n{name} = {terms.tree(part, known)}\n")
        known[name] = part
    out += [route_lemma("a_route_of_32_handlers", []), route_lemma("a_route_of_33_handlers", ["y.a"])]
    head = "How many handlers a route may have, as the reference program tells it."
    return terms.file(head, "\n".join(out), IMPORTS)


# ---- whole scripts

LISTS = {"micros": 24, "decls": 64, "events": 64, "changes": 16, "do": 8_192, "lose": 256, "crash": 8}
ITEMS = {"micros": LINK, "decls": SET, "events": EVENT, "changes": CHANGE, "do": ITEM, "lose": LOSS, "crash": CRASH}
KEYS = ["version", "nodes", "ticks", *LISTS]
# More steps than the prover makes for one table.
TOO_MANY_TO_VISIT = {"do"}


def list_rows(key, limit):
    """What is no list, an empty one, one with a number in it, one of as many items as there may be, and of one more."""
    full = [] if key in TOO_MANY_TO_VISIT else [{**PLAIN, key: [ITEMS[key]] * limit}]
    return [{**PLAIN, key: {}}, {**PLAIN, key: []}, {**PLAIN, key: [ITEMS[key], 1]}, *full,
            {**PLAIN, key: [ITEMS[key]] * (limit + 1)}]


KEY_ROWS = [
    PLAIN, without(PLAIN, "changes"), [PLAIN], {**PLAIN, "more": 1},
    *(without(PLAIN, key) for key in KEYS[:6]), {**PLAIN, "version": 2}, {**PLAIN, "version": "1"}, {**PLAIN, "nodes": 0},
    {**PLAIN, "nodes": 8}, {**PLAIN, "nodes": 9}, {**PLAIN, "nodes": []}, {**PLAIN, "ticks": 0}, {**PLAIN, "ticks": 10_000},
    {**PLAIN, "ticks": 10_001}, {**PLAIN, "ticks": "1"},
    "of two keys the first one of the table tells its fault",
    *({**PLAIN, first: 0, second: 0} for first, second in zip(KEYS, KEYS[1:])),
]
LIST_ROWS = [row for key, limit in LISTS.items() for row in list_rows(key, limit)]

TWICE = {"events": [EVENT, EVENT]}
UNKNOWN = {"decls": [{**SET, "micros": ["m"]}]}
OUTSIDE = {"crash": [{**CRASH, "node": 2}]}
PASS_ROWS = [
    {**PLAIN, **TWICE, **UNKNOWN, **OUTSIDE, "lose": [1]}, {**PLAIN, **TWICE, **UNKNOWN, **OUTSIDE},
    {**PLAIN, **UNKNOWN, **OUTSIDE},
    {**PLAIN, **OUTSIDE}, {**PLAIN, "do": [ITEM], "lose": [LOSS], "crash": [CRASH]},
]


def form_table(name, note, values, parts):
    found = with_faults(values, lambda value: fault_of(lambda: script.FormPass().top(value)))
    return table(name, note, "form_of_all", " ".join(["form_of_all", *FAULTS, "instr_in"]), found, parts)


def walk_file():
    head = "Whole scripts: trees, and beside each the fault that the reference program finds in the first pass or in all four."
    items = ["item_e", "loss_of_all", "crash_of_1", *SCRIPT_PARTS]
    forms = tables([("keys_of_a_script", "the keys of a script", KEY_ROWS, items),
                    ("lists_of_a_script", "its lists", LIST_ROWS, items)], form_table)
    passes = whole_table("first_pass_that_has_a_fault", "a fault of each pass: each goes over the whole tree before the next",
                         PASS_ROWS, parts_of(items))
    return terms.file(head, f"{forms}\n{passes}", IMPORTS)


# ---- meaning

EVERY_CODE = [
    ["set", "r0", 7], ["copy", "x1", "r0"], ["add", "r2", "x0"], ["sub", "r3", "x1"], ["less", "x0", "x1", 2],
    ["call", 1, 2],
    ["later", 0, 0], ["send", "x3", 1, 4], ["deliver", 3], ["change", 1, 1], ["done", 1],
]
EVERY_KIND = [{"name": f"k_{kind}", "kind": kind, "ports": ["f", "e", "f"][:script.LEAST_PORTS[kind]]}
              for kind in script.KINDS[2:]]
# Something of each sort, with names that are used before they are defined, and with repeats in the route.
EVERYTHING = {
    "version": 1, "nodes": 2, "ticks": 3,
    "micros": [{"name": "a", "kind": "prog", "nums": [5, 6], "ports": ["e", "f"], "changes": ["d", "c"],
                "handlers": [{"name": "h", "code": EVERY_CODE}, {"name": "g", "code": []}]},
               {"name": "l", "kind": "link", "ports": ["f"]}, *EVERY_KIND],
    "decls": [{"name": "s", "form": "set", "micros": ["l", "a"]},
              {"name": "b", "form": "bound", "budget": 7,
               "bounds": [{"micro": "l", "calls": 1}, {"micro": "a", "calls": 3}]},
              {"name": "r", "form": "route", "budget": 256, "roots": ["a.h", "l.recv", "a.h"],
               "edges": [["a.g", "a.h"], ["a.g", "k_cons.suspect"], ["a.g", "a.h"]]}],
    "events": [{"name": "e", "decl": "r", "handlers": ["a.g", "k_abcast.decided"]},
               {"name": "f", "decl": "b", "handlers": []}],
    "changes": [{"name": "c", "event": "f", "table": [{"event": "e", "handlers": ["k_repl.switched", "k_seqcast.recv"]}]},
                {"name": "d", "event": "e", "table": [{"event": "f", "handlers": []}, {"event": "e", "handlers": ["a.h"]}]}],
    "do": [{"tick": 3, "node": 1, "event": "f", "args": [1, 2]}, {"tick": 1, "node": 0, "change": "d"}],
    "lose": [{"from": 0, "to": 1, "first": 2, "last": 18446744073709551615}], "crash": [{"node": 1, "tick": 9}],
}
FEWEST_KEYS = {
    "version": 1, "nodes": 1, "ticks": 1, "micros": [{"name": "m", "kind": "prog", "handlers": [{"name": "h", "code": []}]}],
    "decls": [{"name": "d", "form": "route", "roots": ["m.h"]}], "events": [{"name": "e", "decl": "d", "handlers": ["m.h"]}],
}


def named_lists(name, tree):
    """The lists of several objects of a tree, by key, each with a name of its own."""
    return {key: f"{name}_{key}" for key, value in tree.items()
            if isinstance(value, list) and len(value) > 1 and isinstance(value[0], dict)}


def meaning(name, note, tree):
    """The lemma on what a tree means: the script that is read from its text."""
    read = script.read_script(samples.text(tree).encode())
    fields = {**terms.happening_fields(read), **terms.stack_fields(read)}
    lists = named_lists(name, tree)
    before = "".join(f"abbrev {own} : List Data\n{own} =\n{terms.rows([terms.tree(item, {}) for item in tree[key]])}\n\n"
                     for key, own in lists.items())
    members = terms.chain(f"({terms.text(key)}, {f'arr {lists[key]}' if key in lists else terms.tree(value, {})})"
                          for key, value in tree.items())
    return (f"-- {note}\n{before}abbrev {name} : Data\n{name} = obj ({members})\n\n"
            f"{name}_meant : script_meant {name} ≡ {terms.record(fields)}\n"
            f"unfolding {MEANING}\n{name}_meant = refl\n")


def meaning_file():
    body = "\n".join([meaning("everything", "something of each sort", EVERYTHING),
                      meaning("fewest_keys", "a script without the keys that may be left out", FEWEST_KEYS)])
    head = "What trees without a fault mean: the scripts that the reference program reads in them."
    return terms.file(head, body, IMPORTS)


FILES = {
    "ReferenceParts": parts_file,
    "ReferenceObjects": objects_file, "ReferenceInstructions": instructions_file, "ReferenceNames": names_file,
    "ReferenceTotals": totals_file, "ReferenceRoutes": routes_file, "ReferenceWalk": walk_file,
    "ReferenceMeaning": meaning_file,
}
