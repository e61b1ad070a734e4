"""The proof files of samoa_serial that run whole scripts, and that of samoa_laws: computations entry by entry, and reports.

All scripts but the last have the same microprotocols, declarations, events and changes; they differ in what happens."""
from dataclasses import dataclass

import proof_terms as terms
import samples
from report import report
from script import read_script
from serial_run import COMPUTATION_LIMIT, changed_table, first_table, history

_ADD = [["add", "r0", "x0"], ["copy", "x0", "r0"], ["done", 1]]
_TELL = [["add", "r0", "x0"], ["deliver", 1], ["done", 1]]
_CODE_OF_A = {
    "add": _ADD,
    "ask_b": [["call", 0, 1], ["deliver", 2], ["done", 1]],
    "loop": [["add", "r1", "x0"], ["call", 3, 1]],
    "thrice": [["call", 0, 1], ["call", 0, 1], ["call", 0, 1], ["deliver", 2]],
    "later": [["later", 4, 1], ["set", "x0", 9], ["later", 2, 1], ["call", 0, 1], ["done", 1]],
    "send": [["send", "x0", 1, 2]],
    "flood": [["set", "x1", 9], ["send", "x1", 5, 0]],
    "ask": [["change", 0, 1], ["send", "x0", 4, 1], ["change", 1, 2]],
    "loop_later": [["later", 3, 1], ["later", 1, 1]],
}
_EVENTS = [
    ("b_add", "all", "b.add"), ("add", "only_a", "a.add"), ("tell", "all", "c.tell"), ("loop", "two_units", "a.loop a.add"),
    ("moving", "all", "b.add"), ("flood", "only_a", "a.flood"), ("ask_b", "all", "a.ask_b"), ("alone", "only_a", "a.ask_b"),
    ("outside", "only_a", "a.add c.tell"), ("unbound", "only_a", ""), ("thrice", "twice_b", "a.thrice"),
    ("along", "route", "a.later"),
    ("astray", "route", "a.ask_b"), ("later", "all", "a.later"), ("three", "all", "a.add b.add c.tell"),
    ("send", "only_a", "a.send"),
    ("ask", "only_a", "a.ask"), ("loop_later", "two_units", "a.loop_later"),
    ("twice_a", "twice_b", "a.send a.add"), ("a_and_b", "twice_b", "a.add b.add"),
]


def stack(do="", nodes=1, ticks=1, **more):
    """A tree of this file's microprotocols. `to_c` binds the event `moving` to c instead of b, `to_both` to both."""
    def handlers(codes):
        return [{"name": name, "code": [list(instruction) for instruction in code]} for name, code in codes.items()]

    def change(name, handlers):
        return {"name": name, "event": "add", "table": [{"event": "moving", "handlers": handlers.split()}]}

    return {
        "version": 1, "nodes": nodes, "ticks": ticks,
        "micros": [
            {"name": "a", "kind": "prog", "ports": ["b_add", "add", "tell", "loop", "moving", "flood"],
             "changes": ["to_c", "to_both"], "handlers": handlers(_CODE_OF_A)},
            {"name": "b", "kind": "prog", "nums": [100], "handlers": handlers({"add": _ADD})},
            {"name": "c", "kind": "prog", "handlers": handlers({"tell": _TELL})},
        ],
        "decls": [
            {"name": "only_a", "form": "set", "micros": ["a"]}, {"name": "all", "form": "set", "micros": ["a", "b", "c"]},
            {"name": "two_units", "form": "set", "micros": ["a"], "budget": 2},
            {"name": "twice_b", "form": "bound", "bounds": [{"micro": "a", "calls": 1}, {"micro": "b", "calls": 2}]},
            {"name": "route", "form": "route", "roots": ["a.later"], "edges": [["a.later", "b.add"], ["b.add", "c.tell"]]},
        ],
        "events": [samples.event(*parts) for parts in _EVENTS],
        "changes": [change("to_c", "c.tell"), change("to_both", "b.add c.tell")],
        "do": samples.items(do), **more,
    }


def script_of(tree):
    return read_script(samples.text(tree).encode())


HANDLER = "Rattle.samoa_model.specs.declared.handler"
RECORD = "Rattle.samoa_model.specs.declared.record"
SERIAL = "Rattle.samoa_serial.specs"
LINES = ("ext_text", "refusal_line", "delivered_text", "end_text", "state_text", "total_text")
CALL_LINES = ("accepted_text", "finished_text", "waiting_text", "sent_text", "asked_text")
COMPUTATIONS = ("comp_text", "comps_text", "node_text", "states_text")
HISTORY = ("history", "history_to", "batch")
TICKS = ("history_within", "is_limited_by", "is_limited_to", "admitted_by", "admitted_to")
LIMITED = ("limit_text", "report_to", "report_in_full")
REPORT_OPENED = " ".join(["digits", "report", "report_of", *COMPUTATIONS, *HISTORY, *LINES])
LIMITED_OPENED = " ".join(["digits", "report_to", *COMPUTATIONS, *TICKS, "batch_after", "batch", "limit_text", *LINES])

IMPORTS = [
    ("Rattle.std.specs.Prelude",
     ["◌≡◌", "ℕ", "true", "false", "List", "[]", "◌∷◌", "◌++◌", "codes", "map", "length", "Some", "None", "refl"]),
    ("Rattle.std.specs.Fmt", ["digits"]),
    (f"{HANDLER}.Dest.TheVariants", ["One", "All"]),
    (f"{HANDLER}.Refusal.TheVariants", ["OverBudget", "Unbound", "Undeclared", "OverBound", "OffRoute"]),
    (f"{HANDLER}.Reply.TheVariants", "reply"),
    (f"{RECORD}.Cause.TheVariants", "causes"),
    (f"{RECORD}.Entry", ["Entry"]),
    (f"{RECORD}.Entry.TheVariants", "entry"),
    (f"{RECORD}.Ending", ["Ending"]),
    (f"{RECORD}.Ending.TheVariants", "ending"),
    ("Rattle.samoa_model.specs.declared.script.Decl", ["Decl"]),
    ("Rattle.samoa_model.specs.declared.script.Script", ["Script"]),
    ("Rattle.samoa_model.specs.declared.setup.Instr.TheVariants", "instr"),
    ("Rattle.samoa_model.specs.declared.setup.Kind.TheVariants", "kinds"),
    ("Rattle.samoa_model.specs.declared.setup.Place.TheVariants", ["Reg", "Local"]),
    ("Rattle.samoa_model.specs.Scripts", ["table_of"]),
    (f"{SERIAL}.State", ["Registers"]),
    (f"{SERIAL}.Whole", ["Ran"]),
    (f"{SERIAL}.SerialRun", ["serial"]),
    (f"{SERIAL}.Lines", [*LINES, *CALL_LINES]),
    (f"{SERIAL}.History", HISTORY),
    (f"{SERIAL}.Batch", ["batch_after"]),
    (f"{SERIAL}.Ticks", TICKS),
    (f"{SERIAL}.Report", [*COMPUTATIONS, "report_of", "report"]),
    (f"{SERIAL}.LimitedReport", LIMITED),
    ("Rattle.samoa_serial.proofs.ReferenceScripts", ["stack", "computations"]),
    ("Rattle.samoa_serial.proofs.ReferenceWords", ["event", "change", "micro", "handler", "node", "report_of_lines"]),
]


# ---- the scripts

def happening(name, note, script):
    """A script of this file's microprotocols, by what happens in it."""
    fields = {key: term for key, term in terms.happening_fields(script).items() if term != "[]"}
    own = terms.record(fields).replace("record {", "record stack {", 1)
    return f"-- {note}\nabbrev {name} : Script\n{name} = {own}\n"


COMPUTATIONS_NOTE = ("calls one within another, several at once and later ones; each refusal, cuts, messages, changes that are "
                     "asked for, and one that is made")
# What is sent and asked for comes to nobody, since no tick follows: what the script admits is its own items.
COMPUTATIONS_SCRIPT = stack(
    "%2 moving 1; tell 5; ask_b 3; @1 alone 3; outside 1; unbound; loop 1; loop_later 1; thrice 1; twice_a 1; a_and_b 2;"
    "along 2; astray 2; three 4; later 6; %2 change to_c 3; %2 moving 2; %2 @1 moving 4; %2 later 1; %2 @1 send 0 9;"
    "%2 send 7 8; %2 ask 1 2",
    nodes=2, ticks=2)


def scripts_file():
    plain = script_of(stack())
    fields = {**terms.happening_fields(plain), **terms.stack_fields(plain)}
    body = (f"-- three scripted microprotocols, with declarations of each form, and nothing that happens\n"
            f"abbrev pub stack : Script\nstack = {terms.record(fields)}\n\n"
            + happening("computations", COMPUTATIONS_NOTE, script_of(COMPUTATIONS_SCRIPT)).replace("abbrev ", "abbrev pub "))
    return terms.file("Scripts whose runs and reports stand in other files of this folder.", body, IMPORTS)


# ---- computations entry by entry

def seen(script, computation):
    """A computation's entries, its ending and how many handler steps it made, after a line that tells what began it."""
    entries = terms.rows(map(terms.entry, computation.entries), 6).lstrip()
    admission = computation.admission
    what, number = admission.cause
    name = (script.events if what == "event" else script.changes)[number].name
    return (f"(\n  -- {name}, at node {admission.node}\n  {entries},\n  {terms.ending(computation.ending)},\n"
            f"  {computation.steps},\n)")


def bindings(script, run, node):
    """The handlers that are bound to each event at a node at the end."""
    table = first_table(script)
    for computation in run.computations:
        what, number = computation.admission.cause
        if what == "change" and computation.admission.node == node:
            table = changed_table(script, table, number)
    return table


def runs_file():
    script = script_of(COMPUTATIONS_SCRIPT)
    run = history(script)
    assert len(run.computations) == len(script.items)
    opened = f"unfolding {' '.join(HISTORY)}"
    comps = " ∷ ".join(seen(script, own) for own in run.computations)
    parts = [
        "-- what is seen of a computation: its entries, its ending, and how many handler steps it made\n"
        "abbrev seen : Ran → List Entry × Ending × ℕ\nseen ran = (ran.world.entries, ran.value, length ran.world.turns)\n",
        "-- what is admitted, in the order of the ticks: each whole, after those before\n"
        f"computations_run : map seen (serial computations (history computations)).comps ≡ {comps} ∷\n    []\n"
        f"{opened}\ncomputations_run = refl\n"]
    for node, boxes in enumerate(run.boxes):
        states = terms.chain(f"Registers ({terms.words(box.show())})" for box in boxes)
        positions = terms.words(range(len(boxes)))
        parts.append(
            f"-- the states that stand at the end at node {node}\n"
            f"states_at_{node} : map ((serial computations (history computations)).states {node}) ({positions}) ≡ {states}\n"
            f"{opened}\nstates_at_{node} = refl\n")
    bound = terms.chain(terms.argument(terms.handlers(own)) for own in bindings(script, run, 0))
    parts.append(
        "-- what is bound to each event at the end at node 0, which made a change\n"
        f"bindings_at_0 : table_of computations (history computations) 0 ≡ {bound}\n{opened}\nbindings_at_0 = refl\n")
    head = "Computations of a serial run, entry by entry, as the reference program runs them."
    return terms.file(head, "\n".join(parts), IMPORTS)


# ---- reports

def lines(text):
    """A report as a list of its lines."""
    return terms.rows([terms.text(line) for line in text.splitlines()])


def reported(name, definition, opened, script, run, calls):
    """The lemma that a definition gives the report of a run."""
    text = lines(report(script, run, calls))
    opened = " ".join([opened, *CALL_LINES]) if calls else opened
    return (f"{name} : {definition} {'true' if calls else 'false'} ≡ report_of_lines (\n{text})\n"
            f"unfolding {opened}\n{name} = refl\n")


def report_file():
    script = script_of(COMPUTATIONS_SCRIPT)
    run = history(script)
    idle = script_of(stack())
    parts = [
        "-- with call lines\n" + reported("computations_reported", "report computations", REPORT_OPENED, script, run, True),
        "-- nothing to do\n" + reported("nothing_reported", "report stack", REPORT_OPENED, idle, history(idle), False)]
    return terms.file("Reports, byte by byte, as the reference program writes them.", "\n".join(parts), IMPORTS)


# ---- ticks

@dataclass
class Ticking:
    """A script whose ticks admit what others sent and asked for, and how many computations it may have."""
    name: str
    note: str
    tree: dict
    limit: int = COMPUTATION_LIMIT
    calls: bool = False


TICKING = [
    Ticking("messages", "messages to one node and to all, and one of the last tick, which comes to nobody",
            stack("send 1 7; @1 send 5 6; %2 @1 add 3; %3 send 0 4", nodes=2, ticks=3)),
    Ticking("losses", "messages to all, of which some are lost by their sender, receiver and tick",
            stack("send 9 1; %2 send 9 1; %3 send 9 1; %2 @2 send 1 1; %2 @2 send 0 1", nodes=3, ticks=4, lose=[
                samples.loss(0, 1, 2, 3), samples.loss(0, 0, 1, 1), samples.loss(2, 0, 1, 9), samples.loss(1, 2, 1, 9)])),
    Ticking("crashes", "a node that admits nothing from its tick on: no item, no message, no change that it asked for",
            stack("@1 add 1; @1 ask 1 2; send 1 5; %2 @1 add 1; %2 send 9 3; %3 @1 add 1; %3 add 2", nodes=2, ticks=3,
                  crash=[{"node": 1, "tick": 2}])),
    Ticking("changes", "changes that were asked for come first, then the script's own items, then messages",
            stack("moving 1; ask 1 2; @1 ask 1 5; %2 moving 3; %2 change to_c 7; %2 moving 4; %3 moving 5", nodes=2,
                  ticks=3)),
    Ticking("flood_cut_in_its_third_tick",
            "messages that double in each tick: the limit is passed in the third, and no fourth is run",
            stack("flood", nodes=2, ticks=4), 6),
    Ticking("as_many_as_the_limit", "as many computations as the limit, and no more",
            stack("flood; %2 add 1", nodes=2, ticks=2), 4),
    Ticking("one_more_than_the_limit", "one more than the limit", stack("flood; %2 add 1", nodes=2, ticks=2), 3),
    Ticking("limit_met_before_the_last_tick", "the limit is met exactly in the second tick, and passed in the third",
            stack("flood; %2 add 1; %3 add 2", nodes=2, ticks=3), 4),
    Ticking("limit_passed_by_items", "the limit is passed in the first tick, by the script's own items",
            stack("add 1; add 2; add 3", nodes=1, ticks=2), 1),
]


def ticking(own):
    script = script_of(own.tree)
    definition = "report_in_full" if own.limit == COMPUTATION_LIMIT else f"report_to {own.limit}"
    run = history(script, own.limit)
    text = reported(f"{own.name}_reported", f"{definition} {own.name}", LIMITED_OPENED, script, run, own.calls)
    # The limit line tells the reference program's own limit.
    return happening(own.name, own.note, script) + "\n" + text.replace(f'"L {COMPUTATION_LIMIT}"', f'"L {own.limit}"')


def ticks_file():
    head = "What ticks admit, by the reports that the reference program writes."
    return terms.file(head, "\n".join(map(ticking, TICKING)), IMPORTS)


FILES = {
    "ReferenceScripts": scripts_file, "ReferenceRuns": runs_file, "ReferenceReport": report_file,
    "ReferenceTicks": ticks_file,
}


# ---- the group stack, whose parts samoa_laws has

ALL_LINES = ("ext_text", "accepted_text", "finished_text", "refusal_line", "waiting_text", "sent_text", "delivered_text",
             "asked_text", "end_text", "state_text", "total_text")
GROUP_IMPORTS = [
    ("Rattle.std.specs.Prelude", ["◌≡◌", "false", "[]", "◌∷◌", "◌++◌", "refl", "codes"]),
    ("Rattle.std.specs.Fmt", ["digits"]),
    (f"{RECORD}.Cause", ["Cause"]),
    ("Rattle.samoa_model.specs.declared.script.Script", ["Script"]),
    (f"{SERIAL}.Lines", ALL_LINES),
    (f"{SERIAL}.History", ["batch"]),
    (f"{SERIAL}.Batch", ["batch_after"]),
    (f"{SERIAL}.Ticks", TICKS),
    (f"{SERIAL}.Report", COMPUTATIONS),
    (f"{SERIAL}.LimitedReport", LIMITED),
    ("Rattle.samoa_laws.specs.trace.Group", ["event", "group_changes", "group_decls", "group_events", "group_micros"]),
]


def group_file():
    script = script_of(samples.group("cast 0 7", ticks=5))
    [item] = script.items
    fields = {"nodes": script.nodes, "ticks": script.ticks}
    fields |= {key: f"group_{key}" for key in ("micros", "decls", "events", "changes")}
    fields["does"] = terms.chain([terms.short_record(
        tick=item.tick, node=f"record {{ 0 = {item.node} }}", cause=f"Cause.Event (event {item.cause[1]})",
        args=terms.words(item.arguments))])
    fields |= {"losses": "[]", "crashes": "[]"}
    text = "\n    ++ ".join(f'codes "{line}\\n"' for line in report(script, history(script), False).splitlines())
    opened = ["digits", "report_to", "comps_text", "comp_text", "states_text", "node_text", "history_within",
              "is_limited_to", "is_limited_by", "admitted_to", "admitted_by", "batch_after", "batch", "limit_text", *ALL_LINES]
    body = (f"abbrev one_cast : Script\none_cast = {terms.record(fields)}\n\n"
            f"one_cast_reported : report_in_full one_cast false ≡\n    {text}\nunfolding {' '.join(opened)}\n"
            "one_cast_reported = refl\n")
    head = ("The report of a script of the group stack, run by the prover: a broadcast of one node. The expected values come "
            "from an independent program.")
    return terms.file(head, body, GROUP_IMPORTS)
