"""The core, which has several computations open at once and hands microprotocols on by versions; runs of one worker;
journals and their check (docs/REPORT.md).

A step is ("a", k) admit, ("e", k, p) enter, ("l", k) leave, ("b", k) abandon, ("r", k, p) release or ("n", k) end, with a
computation k and a microprotocol p.

How calls are tested and run is written here a second time, apart from serial_run.py: there as a recursion over whole calls,
here as a list of active calls that is taken on one step at a time.
"""
import re
from dataclasses import dataclass

from kinds import opening
from report import report
from script import cells_of_budget
from serial_run import (COMPUTATION_LIMIT, CUT, Batches, Computation, Run, changed_table, declaration_of, first_table,
                        history, root_event)

MOST_CELLS = 1_048_576


@dataclass
class ActiveCall:
    number: int
    handler: tuple
    is_last: bool          # the last handler of its attempt, whose reply counts
    moment: tuple = None   # what its next step begins from, or None where it waits for a reply
    frame: list = None


class OpenComputation:
    """A computation of the core: its active calls (the innermost last), its waiting calls, its units and entries."""

    def __init__(self, script, admission, table):
        self.admission = admission
        self.declaration = declaration_of(script, admission)
        self.table = table
        self.units = self.declaration.budget
        self.active = []
        self.waiting = []     # (asking call, event, argument)
        self.entries = []
        self.handler_of = {}  # by call
        self.private = {}     # the private version, by microprotocol
        self.ending = None
        self.ended = False
        self.out = None       # the microprotocol at which a step of it is out
        self.root_replied = False
        refusal = self.attempt(0, root_event(script, admission), admission.arguments)
        if refusal:
            self.ending = ("no", refusal)
            self.root_replied = True

    def attempt(self, caller, event, argument):
        """Attempts a call. Its handlers become active, and the answer is None; or the answer is the refusal."""
        handlers = self.table[event]
        refusal = None if handlers else "Unbound"
        counts = {}
        for entry in self.entries:
            if entry[0] == "C":
                counts[entry[3][0]] = counts.get(entry[3][0], 0) + 1
        weights = self.declaration.weights()
        form = self.declaration.form
        for handler in handlers:
            if refusal:
                break
            micro = handler[0]
            if micro not in weights:
                refusal = "Undeclared"
            elif form == "bound" and counts.get(micro, 0) >= weights[micro]:
                refusal = "OverBound"
            elif form == "route" and caller == 0 and handler not in self.declaration.roots:
                refusal = "OffRoute"
            elif form == "route" and caller and (self.handler_of[caller], handler) not in self.declaration.edges:
                refusal = "OffRoute"
            counts[micro] = counts.get(micro, 0) + 1
        if refusal:
            self.entries.append(("X", caller, event, refusal))
            return refusal
        made = []
        for position, handler in enumerate(handlers):
            number = len(self.handler_of) + 1
            self.handler_of[number] = handler
            self.entries.append(("C", number, caller, handler, list(argument)))
            made.append(ActiveCall(number, handler, position == len(handlers) - 1, ("begin", handler[1], list(argument))))
        self.active += reversed(made)
        return None

    def nothing_left(self):
        return not self.active and not self.waiting

    def next_micro(self):
        """The microprotocol of its next step, or None."""
        return self.active[-1].handler[0] if self.active else None

    def leave(self, outcome):
        """Takes a step's outcome. The answer is the microprotocol of the handler call that it completed, or None."""
        completed = self.take(outcome)
        while not self.active and self.waiting:
            self.attempt(*self.waiting.pop(0))
        return completed

    def take(self, outcome):
        top = self.active[-1]
        if outcome[0] == "done":
            self.entries.append(("Y", top.number, outcome[1]))
            self.active.pop()
            if top.is_last:
                if self.active:
                    self.resume(self.active[-1], ("words", outcome[1]))
                elif not self.root_replied:
                    self.ending = ("ok", outcome[1])
                    self.root_replied = True
            return top.handler[0]
        if self.units == 0:
            self.entries.append(("X", top.number, None, "OverBudget"))
            self.active = []
            self.waiting = []
            self.ending = CUT
            return None
        self.units -= 1
        top.moment, top.frame = None, outcome[-1]
        reply = ("words", [])
        match outcome:
            case ("call", event, words, _):
                refusal = self.attempt(top.number, event, words)
                reply = ("refused", refusal) if refusal else None
            case ("later", event, words, _):
                self.entries.append(("W", top.number, event, words))
                self.waiting.append((top.number, event, words))
            case ("send", node, event, words, _):
                self.entries.append(("M", top.number, node, event, words))
            case ("deliver", words, _):
                self.entries.append(("D", top.number, top.handler[0], words))
            case ("change", change, words, _):
                self.entries.append(("A", top.number, change, words))
        if reply:
            self.resume(top, reply)
        return None

    def resume(self, call, reply):
        call.moment, call.frame = ("resume", call.handler[1], call.frame, reply), None


def leads_to(declaration, start, micro):
    """Whether a handler of the route is one of the microprotocol, or one is reached from it along edges."""
    reached = [start]
    for handler in reached:
        for edge_from, edge_to in declaration.edges:
            if edge_from == handler and edge_to not in reached:
                reached.append(edge_to)
    return any(handler[0] == micro and handler in declaration.vertices for handler in reached)


class Core:
    """Computations that are open at once. Each microprotocol at a node has a *global version*, which grows as
    computations that declare it are admitted, and a *local version*, which grows as it is handed on; a computation has its
    turn there while the local version is one of its own versions, those up to its *private version*."""

    def __init__(self, script, cells):
        self.script = script
        self.cells = cells
        self.held = 0
        self.boxes = opening(script)
        self.tables = [first_table(script) for _ in range(script.nodes)]
        self.global_version = {}   # by (node, microprotocol)
        self.local_version = {}    # the same
        self.queue = {}       # by (node, microprotocol): who declared it and isn't done there, in the order of admission
        self.computations = []
        self.open = []        # the numbers of those that haven't ended, rising
        self.stopped = False
        self.journal = []

    def cost(self, admission):
        return cells_of_budget(declaration_of(self.script, admission).budget)

    def fits(self, admission):
        return self.cost(admission) <= self.cells - self.held

    def admit(self, admission):
        node = admission.node
        if admission.cause[0] == "change":
            self.tables[node] = changed_table(self.script, self.tables[node], admission.cause[1])
        self.held += self.cost(admission)
        computation = OpenComputation(self.script, admission, self.tables[node])
        self.computations.append(computation)
        number = len(self.computations)
        for micro, weight in computation.declaration.weights().items():
            place = (node, micro)
            self.global_version[place] = self.global_version.get(place, 0) + weight
            self.local_version.setdefault(place, 0)
            computation.private[micro] = self.global_version[place]
            self.queue.setdefault(place, []).append(number)
        self.open.append(number)
        self.journal.append(("a", number))

    def computation(self, number):
        return self.computations[number - 1] if 1 <= number <= len(self.computations) else None

    def has_turn(self, computation, micro):
        if micro not in computation.private:
            return False
        private, weight = computation.private[micro], computation.declaration.weights()[micro]
        return private - weight <= self.local_version[computation.admission.node, micro] < private

    def may_release(self, computation, micro):
        """Whether a computation is done with a microprotocol, whoever has the turn there."""
        if computation.declaration.form != "route":
            return computation.nothing_left()
        active = [call.handler for call in computation.active]
        waiting = [handler for _, event, _ in computation.waiting for handler in computation.table[event]]
        return not any(handler[0] == micro or leads_to(computation.declaration, handler, micro)
                       for handler in active + waiting)

    def is_enabled(self, step):
        """Whether a step other than an admission may be made."""
        computation = self.computation(step[1])
        if computation is None:
            return False
        node = computation.admission.node
        match step[0]:
            case "e":
                return (computation.out is None and computation.next_micro() == step[2] and not self.stopped
                        and self.has_turn(computation, step[2]) and self.nobody_is_out(node, step[2]))
            case "l" | "b":
                return computation.out is not None
            case "r":
                return self.has_turn(computation, step[2]) and self.may_release(computation, step[2])
            case "n":
                return (not computation.ended and computation.nothing_left()
                        and all(self.local_version[node, micro] >= private
                                for micro, private in computation.private.items()))
        raise ValueError(step)

    def nobody_is_out(self, node, micro):
        return all(self.computation(number).out != micro for number in self.queue.get((node, micro), []))

    def make(self, step):
        """Makes a step that is enabled, other than an admission."""
        computation = self.computation(step[1])
        node = computation.admission.node
        match step[0]:
            case "e":
                computation.out = step[2]
            case "l":
                outcome = self.boxes[node][computation.out].step(computation.active[-1].moment)
                computation.out = None
                micro = computation.leave(outcome)
                if micro is not None and computation.declaration.form == "bound":
                    self.hand_on(node, micro, self.local_version[node, micro] + 1)
            case "b":
                computation.out = None
                self.stopped = True
            case "r":
                self.hand_on(node, step[2], computation.private[step[2]])
            case "n":
                computation.ended = True
                self.open.remove(step[1])
        self.journal.append(step)

    def hand_on(self, node, micro, version):
        self.local_version[node, micro] = version
        queue = self.queue[node, micro]
        while queue and self.computation(queue[0]).private[micro] <= version:
            queue.pop(0)

    def pick(self):
        """The first computation whose next step may be entered, or None."""
        for number in self.open:
            micro = self.computation(number).next_micro()
            if micro is not None and self.is_enabled(("e", number, micro)):
                return number
        return None

    def settle(self):
        """Makes all releases, by rising computation and then microprotocol, and then all endings."""
        while True:
            # Only the first in the queue of a microprotocol can have its turn there.
            owners = sorted((queue[0], micro) for (_, micro), queue in self.queue.items() if queue)
            step = next((("r", *owner) for owner in owners if self.is_enabled(("r", *owner))), None)
            if step is None:
                break
            self.make(step)
        for number in list(self.open):
            if self.is_enabled(("n", number)):
                self.make(("n", number))

    def drain(self):
        """What one worker does: the picked computation's step is entered and left, until none is picked."""
        self.settle()
        while (number := self.pick()) is not None:
            self.make(("e", number, self.computation(number).next_micro()))
            self.make(("l", number))
            self.settle()

    def all_ended(self):
        return not self.open

    def clear(self):
        assert self.all_ended()
        self.held = 0

    def as_run(self, limited=False):
        computations = [Computation(own.admission, own.entries, own.ending) for own in self.computations]
        return Run(computations, self.boxes, limited)


def run_one_worker(script, cells):
    """The run of one worker, tick by tick: the core, and whether there would have been more than the limit."""
    core = Core(script, cells)
    batches = Batches(script)
    for tick in range(1, script.ticks + 1):
        rest = batches.batch(tick)
        while rest:
            first = len(core.computations)
            while rest and len(core.computations) < COMPUTATION_LIMIT and core.fits(rest[0]):
                core.admit(rest.pop(0))
            if len(core.computations) == first:
                assert first == COMPUTATION_LIMIT
                return core, True
            core.drain()
            core.clear()
            for computation in core.computations[first:]:
                batches.gather(computation.admission.node, tick, computation.entries)
    return core, False


def step_line(step):
    return " ".join(map(str, step))


def journal_text(journal):
    return f"J {len(journal)}\n" + "".join(step_line(step) + "\n" for step in journal)


_NUMBER = "(0|[1-9][0-9]*)"
_STEPS = [re.compile(f"([alnb]) {_NUMBER}".encode()), re.compile(f"([er]) {_NUMBER} {_NUMBER}".encode())]


class ReplayFault(Exception):
    """The fault of a journal. `line` is what stands after `! replay `."""

    def __init__(self, line):
        super().__init__(line)
        self.line = line


def read_step(line: bytes):
    """The step of a line, or None."""
    for form in _STEPS:
        found = form.fullmatch(line)
        if found:
            letter, *numerals = found.groups()
            if all(len(numeral) <= 10 and int(numeral) < 2 ** 32 for numeral in numerals):
                return (letter.decode(), *map(int, numerals))
    return None


def read_steps(text: bytes):
    """The steps of the lines of a journal. Raises the fault of the first line that is none."""
    *lines, tail = text.split(b"\n")
    steps = []
    for number, line in enumerate(lines, 1):
        step = read_step(line)
        if step is None:
            raise ReplayFault(f"BadLine {number}")
        steps.append(step)
    if tail:
        raise ReplayFault(f"BadLine {len(lines) + 1}")
    return steps


def check_journal(script, steps):
    """The report of a script, where the steps are a complete journal of it. Raises the first ReplayFault."""
    serial = history(script)
    due = [computation.admission for computation in serial.computations]
    core = Core(script, MOST_CELLS)
    for number, step in enumerate(steps, 1):
        admitted = len(core.computations)
        if core.all_ended():
            core.clear()
            if admitted == len(due):
                raise ReplayFault(f"Trailing {number}")
        if step[0] == "a":
            if step[1] != admitted + 1 or admitted == len(due):
                raise ReplayFault(f"NotEnabled {number}")
            admission = due[admitted]
            begins_tick = admitted == 0 or due[admitted - 1].tick != admission.tick
            if not core.fits(admission) or (begins_tick and not core.all_ended()):
                raise ReplayFault(f"NotEnabled {number}")
            core.admit(admission)
        elif core.is_enabled(step):
            core.make(step)
        else:
            raise ReplayFault(f"NotEnabled {number}")
    if core.open:
        raise ReplayFault(f"Unfinished {core.open[0]}")
    if len(core.computations) < len(due) or serial.limited:
        raise ReplayFault(f"Unfinished {len(core.computations) + 1}")
    text = report(script, core.as_run(), False)
    assert text == report(script, serial, False)
    return text
