"""The serial run: what a script admits, tick by tick, each computation run whole, one after another.

It is the recursion over whole calls. The core in journal.py is written apart from it, so that the two check each other.

What happens within a computation is a list of *entries*:
    ("C", call, caller, handler, argument)     a handler was called
    ("Y", call, reply)                         a handler call finished
    ("X", caller, event or None, refusal)      a call was refused, or the computation was cut
    ("W", call, event, argument)               an event is to be called later
    ("M", call, node or None, event, argument) a message was sent, to a node or to all
    ("D", call, microprotocol, argument)       words were given to the outside
    ("A", call, change, argument)              a change of bindings was asked for
Its *ending* is ("ok", words), ("no", refusal) or ("cut",).
"""
from dataclasses import dataclass

from kinds import opening

COMPUTATION_LIMIT = 100_000
CUT = ("cut",)


def refusal_of(declaration, entries, tested_before, caller, handler):
    """Why a declaration doesn't allow a call, or None. The caller is a handler, or None for the external event; of one
    attempt to call several handlers, those that were tested before count as calls."""
    micro = handler[0]
    weights = declaration.weights()
    if micro not in weights:
        return "Undeclared"
    if declaration.form == "bound":
        calls = sum(entry[0] == "C" and entry[3][0] == micro for entry in entries)
        if calls + sum(other[0] == micro for other in tested_before) >= weights[micro]:
            return "OverBound"
    if declaration.form == "route":
        allowed = handler in declaration.roots if caller is None else (caller, handler) in declaration.edges
        if not allowed:
            return "OffRoute"
    return None


def attempt(declaration, table, entries, caller, event):
    """The handlers that a call of an event goes to, and None; or None and the refusal."""
    handlers = table[event]
    if not handlers:
        return None, "Unbound"
    for position, handler in enumerate(handlers):
        refusal = refusal_of(declaration, entries, handlers[:position], caller, handler)
        if refusal:
            return None, refusal
    return handlers, None


class WholeEvent:
    """One computation, run whole on the boxes of its node."""

    def __init__(self, boxes, declaration, table):
        self.boxes = boxes
        self.declaration = declaration
        self.table = table
        self.units = declaration.budget
        self.waiting = []     # (asking call, event, argument)
        self.entries = []
        self.handler_of = {}  # by call
        self.steps = 0

    def attempt(self, caller, event, argument):
        """Enters the refusal, or all calls that are made. The calls and None, or None and the refusal."""
        handlers, refusal = attempt(self.declaration, self.table, self.entries, self.handler_of.get(caller), event)
        if refusal:
            self.entries.append(("X", caller, event, refusal))
            return None, refusal
        calls = []
        for handler in handlers:
            call = len(self.handler_of) + 1
            self.handler_of[call] = handler
            self.entries.append(("C", call, caller, handler, list(argument)))
            calls.append(call)
        return calls, None

    def run(self, calls, argument):
        """Runs calls in order; the reply of the last one, or CUT."""
        reply = None
        for call in calls:
            reply = self.whole_call(call, argument)
            if reply is CUT:
                return CUT
        return reply

    def whole_call(self, call, argument):
        """Runs a handler call step by step to its end; its reply, or CUT."""
        handler = self.handler_of[call]
        moment = ("begin", handler[1], list(argument))
        while True:
            self.steps += 1
            outcome = self.boxes[handler[0]].step(moment)
            if outcome[0] == "done":
                self.entries.append(("Y", call, outcome[1]))
                return ("words", outcome[1])
            if self.units == 0:
                self.entries.append(("X", call, None, "OverBudget"))
                return CUT
            self.units -= 1
            reply = ("words", [])
            match outcome:
                case ("call", event, words, _):
                    calls, refusal = self.attempt(call, event, words)
                    reply = ("refused", refusal) if refusal else self.run(calls, words)
                    if reply is CUT:
                        return CUT
                case ("later", event, words, _):
                    self.entries.append(("W", call, event, words))
                    self.waiting.append((call, event, words))
                case ("send", node, event, words, _):
                    self.entries.append(("M", call, node, event, words))
                case ("deliver", words, _):
                    self.entries.append(("D", call, handler[0], words))
                case ("change", change, words, _):
                    self.entries.append(("A", call, change, words))
            moment = ("resume", handler[1], outcome[-1], reply)

    def run_root(self, event, arguments):
        """Runs the root event and then what waits; the ending."""
        calls, refusal = self.attempt(0, event, arguments)
        if refusal:
            return ("no", refusal)
        reply = self.run(calls, arguments)
        if reply is CUT:
            return CUT
        while self.waiting:
            caller, event, argument = self.waiting.pop(0)
            calls, refusal = self.attempt(caller, event, argument)
            if not refusal and self.run(calls, argument) is CUT:
                return CUT
        return ("ok", reply[1])


@dataclass
class Admission:
    """What begins a computation."""
    node: int
    tick: int
    cause: tuple           # ("event", number) or ("change", number)
    arguments: list


def root_event(script, admission):
    what, number = admission.cause
    return number if what == "event" else script.changes[number].event


def declaration_of(script, admission):
    return script.declarations[script.events[root_event(script, admission)].declaration]


def run_whole(script, boxes, table, admission):
    """The entries, the ending and the number of handler steps of one computation; the boxes are those of its node, and are
    changed in place."""
    whole = WholeEvent(boxes, declaration_of(script, admission), table)
    ending = whole.run_root(root_event(script, admission), admission.arguments)
    budget = whole.declaration.budget
    assert whole.steps <= 5 * budget + 4
    assert len(whole.handler_of) <= 4 * budget + 4
    assert len(whole.entries) <= 10 * budget + 10
    return whole.entries, ending, whole.steps


def first_table(script):
    """The handlers that are bound to each event at first."""
    return [list(event.handlers) for event in script.events]


def changed_table(script, table, change):
    table = list(table)
    for event, handlers in script.changes[change].table:
        table[event] = list(handlers)
    return table


def has_crashed(script, node, tick):
    return any(node == crashed and tick >= first for crashed, first in script.crashes)


def is_lost(script, sender, receiver, tick):
    return any((sender, receiver) == (loss_from, loss_to) and first <= tick <= last
               for loss_from, loss_to, first, last in script.losses)


class Batches:
    """What each tick admits. What ended computations sent and asked for is gathered, and is due in the next tick."""

    def __init__(self, script):
        self.script = script
        self.asked = {}       # by tick, (node, cause, arguments)
        self.arriving = {}    # the same

    def gather(self, node, tick, entries):
        """Takes the entries of an ended computation. They are to come in the order of admission."""
        for entry in entries:
            if entry[0] == "A":
                self.asked.setdefault(tick + 1, []).append((node, ("change", entry[2]), entry[3]))
            if entry[0] == "M":
                for receiver in range(self.script.nodes) if entry[2] is None else [entry[2]]:
                    if not is_lost(self.script, node, receiver, tick):
                        self.arriving.setdefault(tick + 1, []).append((receiver, ("event", entry[3]), entry[4]))

    def batch(self, tick):
        """The admissions of a tick, in order: changes, items of the script, messages; none at a node that has crashed."""
        due = self.asked.pop(tick, [])
        due += [(item.node, item.cause, item.arguments) for item in self.script.items if item.tick == tick]
        due += self.arriving.pop(tick, [])
        return [Admission(node, tick, cause, arguments) for node, cause, arguments in due
                if not has_crashed(self.script, node, tick)]


@dataclass
class Computation:
    admission: Admission
    entries: list
    ending: tuple
    steps: int = None      # of handlers; counted in the serial run alone


@dataclass
class Run:
    """All computations, the boxes at the end, and whether there would have been more than the limit."""
    computations: list
    boxes: list
    limited: bool


def history(script, limit=COMPUTATION_LIMIT) -> Run:
    """The serial run of a script. A lower limit is for generators alone."""
    boxes = opening(script)
    tables = [first_table(script) for _ in range(script.nodes)]
    batches = Batches(script)
    computations = []
    for tick in range(1, script.ticks + 1):
        for admission in batches.batch(tick):
            if len(computations) >= limit:
                return Run(computations, boxes, True)
            node = admission.node
            if admission.cause[0] == "change":
                tables[node] = changed_table(script, tables[node], admission.cause[1])
            entries, ending, steps = run_whole(script, boxes[node], tables[node], admission)
            computations.append(Computation(admission, entries, ending, steps))
            batches.gather(node, tick, entries)
    return Run(computations, boxes, False)
