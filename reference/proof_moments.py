"""The proof files of samoa_serial that run the tables of the kinds, each from its opening through a list of moments.

A scenario is a list of moments for one microprotocol at one node. Between them stand notes, and GO_ON, which resumes the
handler that the moment before began or resumed, with the frame that it gave and the empty reply."""
from dataclasses import dataclass, field

import proof_terms as terms
from kinds import BOXES, WORD_LIMIT
from script import HANDLERS_OF_KIND, Microprotocol, Script

GREATEST = WORD_LIMIT - 1
GO_ON = object()
NO_WORDS = ("words", [])


@dataclass
class Scenario:
    name: str
    note: str
    kind: str
    moments: list
    node: int = 0
    nodes: int = 3
    nums: tuple = ()
    ports: int = 0
    changes: int = 0
    code: list = field(default_factory=list)

    def script(self):
        """A script with this microprotocol alone. The numbers of its ports and changes are none of their places."""
        micro = Microprotocol("m", self.kind, list(self.nums), [10 + port for port in range(self.ports)],
                              [20 + change for change in range(self.changes)], self.code, [])
        return Script(self.nodes, 1, [micro], [], [], [], [], [], [], {})

    def begin(self, moment):
        """A moment in full, of the name or the position of a handler and its words."""
        handler, *words = moment
        position = HANDLERS_OF_KIND[self.kind].index(handler) if isinstance(handler, str) else handler
        return ("begin", position, list(words))


def resumed(handler, frame, reply=NO_WORDS):
    """A moment that resumes a handler, by its position, with a frame that nothing before it gave."""
    return ("resume", handler, list(frame), reply)


def steps(scenario):
    """The moments of a scenario in full, each with its outcome and what is shown after it; and the notes between them."""
    script = scenario.script()
    box = BOXES[scenario.kind](script, scenario.node, 0)
    last = None
    for moment in scenario.moments:
        if isinstance(moment, str):
            yield moment
            continue
        if moment is GO_ON:
            moment = ("resume", last[0][1], last[1][-1], NO_WORDS)
        elif moment[0] != "resume":
            moment = scenario.begin(moment)
        outcome = box.step(moment)
        last = (moment, outcome)
        yield moment, outcome, box.show()


def row(moment, outcome, shown):
    return f"({terms.moment(moment)}, {terms.outcome(outcome)}, {terms.words(shown)})"


def lemma(scenario):
    """The definitions and the lemma of a scenario."""
    script = scenario.script()
    lines = []
    held = ""
    for step in steps(scenario):
        if isinstance(step, str):
            held = f"-- {step}\n"
            continue
        lines.append(held + row(*step))
        held = ""
    kind = scenario.kind.capitalize()
    setup = terms.setup(script, script.micros[0], scenario.node)
    return (f"-- {scenario.note}\n{scenario.name} : Gives kinds.{kind} ({setup}) (\n{terms.rows(lines)})\n"
            f"{scenario.name} = refl\n")


HANDLER = "Rattle.samoa_model.specs.declared.handler"
SETUP = "Rattle.samoa_model.specs.declared.setup"
IMPORTS = [
    ("Rattle.std.specs.Prelude", ["◌≡◌", "List", "[]", "◌∷◌", "refl"]),
    (f"{HANDLER}.Moment.TheVariants", ["Begin", "Resume"]),
    (f"{HANDLER}.Dest.TheVariants", ["One", "All"]),
    (f"{HANDLER}.Refusal.TheVariants", ["OverBudget", "Unbound", "Undeclared", "OverBound", "OffRoute"]),
    (f"{HANDLER}.Reply.TheVariants", ["Words", "Refused"]),
    (f"{HANDLER}.Outcome.TheVariants", "gives"),
    (f"{SETUP}.Instr.TheVariants", "instr"),
    (f"{SETUP}.Kind.TheVariants", "kinds"),
    (f"{SETUP}.Place.TheVariants", ["Reg", "Local"]),
    ("Rattle.samoa_serial.proofs.ReferenceWords", ["event", "change", "node", "goes_on", "Gives"]),
]


def scenarios_file(head, scenarios):
    return terms.file(head, "\n".join(map(lemma, scenarios)), IMPORTS)


# ---- links, the detector, reliable broadcast and views

LINK = Scenario(
    "a_link_counts_and_carries", "a link: what it sent, what it got, and the channel by which it hands on", "link", [
    "to a node, and to all where there is no such node",
    ("send", 2, 1, 17, 18), GO_ON, ("send", 3, 0, 5), ("send", GREATEST, GREATEST), ("send",), ("send", 0, 4, *range(1, 11)),
    "by the channels that it has, and by one that it hasn't",
    ("recv", 2, 0, 7, 8), GO_ON, ("recv", 0, 2, 7), ("recv", 0, 3, 7), ("recv", 1, GREATEST), ("recv",),
    ("recv", 0, 1, *range(10)),
], node=1, ports=4)

DETECTOR = Scenario(
    "a_detector_suspects_the_quiet", "a detector: who was quiet for more than two beats is suspected, once", "fd", [
    "two beats, and node 2 is heard after the first",
    ("beat",), GO_ON, ("heard", 2), ("beat",), GO_ON,
    "node 0 is suspected after the third, node 2 after the fourth",
    ("beat",), GO_ON, GO_ON, ("beat",), GO_ON, GO_ON,
    "who is suspected stays so until it is heard, and is suspected again",
    ("beat",), GO_ON, ("heard", 0), resumed(1, []), ("beat",), GO_ON, ("beat",), ("beat",), GO_ON, GO_ON,
    "heard are itself and a node that isn't there; a frame leaves out the nodes below it",
    ("heard", 1), ("heard", 3), ("heard", GREATEST), ("heard",), ("heard", 2), ("beat",), ("beat",), ("beat",),
    resumed(0, [1]),
    resumed(0, [3]), resumed(0, [GREATEST]), resumed(0, [0]),
], node=1, ports=2, nums=(6, 2))

BROADCAST = Scenario(
    "a_broadcast_is_passed_on_once", "reliable broadcast: what is new goes to all and then up", "rbcast", [
    "its own, by its numbers",
    ("cast", 7, 8), GO_ON, GO_ON, ("cast", *range(1, 10)), GO_ON, GO_ON, ("cast",), GO_ON,
    "that of others, once; its own comes back",
    ("recv", 0, 2, 5, 9), GO_ON, GO_ON, ("recv", 0, 2, 5, 9), ("recv", 2, 1, 2, 7, 8), ("recv", 2, 1, 9, 1),
    ("recv", 0, 2, 6, *range(1, 10)),
    GO_ON, GO_ON, ("recv", 0, 5, 2), ("recv",), ("recv",),
], node=1, ports=2, nums=(6,))

VIEWS = Scenario(
    "views_are_asked_for_and_installed", "views: all nodes are members first", "views", [
    ("ask", 5), GO_ON, ("ask",), ("install", 5), ("install", 3), ("install",), resumed(1, []),
], node=1, ports=1)

ONE_VIEW = Scenario("a_view_of_one_node", "a view of one node", "views", [("ask", 1)], nodes=1, ports=1)


# ---- the two ordered broadcasts

FIRST = (0, 2, 1, 0, 70)
SECOND = (0, 2, 2, 0, 71)
THIRD = (0, 0, 1, 0, 72)
FOURTH = (0, 0, 2, 1, 73)
FIFTH = (1, 2, 1, 2, 74)

SEQUENCER = Scenario(
    "a_sequencer_numbers_what_it_gets", "ordered broadcast at the sequencer", "seqcast", [
    "a message goes to the sequencer, which gives each a number once",
    ("cast", *FIRST), GO_ON, ("recv", 2, 0, *FIRST), GO_ON, ("recv", 2, 0, *FIRST), ("recv", 0, 0, *FIFTH),
    ("recv", 0, 0, *THIRD),
    "messages go up in the order of their numbers",
    ("recv", 1, 1, 2, *THIRD), ("recv", 1, 1, 4, *FOURTH), ("recv", 1, 1, 1, *FIRST), GO_ON, GO_ON,
    "of a number the first message stays; what was handed up twice is passed once",
    ("recv", 1, 1, 4, *SECOND), ("recv", 1, 1, 1, *SECOND), ("recv", 1, 1, 3, *FIFTH), ("recv", 1, 1, 3, *FIFTH), GO_ON,
    resumed(1, [1, 3]), GO_ON, ("recv", 1, 1, 0, *FIFTH),
    "other tags and frames",
    ("recv", 1, 2, *FIRST), ("recv", 1, 1), resumed(1, [0]), resumed(1, [2, 5]), resumed(0, [1, 5]),
], node=1, ports=2, nums=(6, 1))

NO_SEQUENCER = Scenario(
    "another_node_numbers_nothing", "ordered broadcast at another node", "seqcast", [
    ("cast", *FIRST), ("recv", 2, 0, *FIRST), ("recv", 1, 1, 1, *FIRST), GO_ON,
], node=0, ports=2, nums=(6, 1))

ATOMIC = Scenario(
    "messages_go_up_in_the_order_of_decisions", "atomic broadcast: one instance of consensus after another", "abcast", [
    "a message is cast; what is heard waits, and the first is proposed once in an instance",
    ("cast", *FIRST), GO_ON, ("heard", 2, 1, 0, *FIRST), GO_ON, ("heard", 2, 1, 0, *FIRST), ("heard", 2, 2, 0, *SECOND),
    ("heard", 0, 1, 1, *THIRD), ("heard", 0, 1, 0, *THIRD),
    "a decision of a later instance is kept; of an instance the first one stays",
    ("decided", 2, *FIRST), ("decided", 1, *SECOND), resumed(2, [0, 1]), resumed(1, [1, 1]), resumed(0, [1, 1]),
    ("decided", 1, *THIRD), GO_ON, GO_ON,
    "what was handed up isn't heard or handed up again",
    ("heard", 2, 2, 0, *SECOND), ("decided", 4, *FIFTH), ("decided", 3, *FIRST), GO_ON,
    "the next that waits is proposed in the next instance, and what never waited can be decided",
    ("heard", 0, 2, 0, *FOURTH), ("decided", 5, *FOURTH), GO_ON, ("decided", 6, *THIRD), GO_ON,
    "frames of an instance that was passed and of one with no decision",
    resumed(2, [1, 3]), resumed(2, [1, 7]),
], node=1, ports=3)

SKIPPED = Scenario(
    "decisions_that_are_handed_up_are_skipped", "atomic broadcast: decisions that came early and were handed up", "abcast", [
    ("decided", 2, *FIRST), ("decided", 3, *FIRST), ("decided", 4, *SECOND), ("decided", 1, *FIRST), GO_ON, GO_ON,
    ("heard", 1, 1, 0, *THIRD),
], node=1, ports=3)


# ---- replacement

DELIVERING = Scenario(
    "the_layer_delivers_its_epoch", "replacement: casts, and deliveries of one epoch", "repl", [
    "a message, a view, a change that there is, and casts that aren't taken",
    ("cast", 0, 7), GO_ON, ("cast", 2, 5), ("cast", 1, 1), ("cast", 1, 2), ("cast", 3, 0), ("cast",),
    "a message is delivered, once for each origin and number",
    ("deliver", *THIRD), GO_ON, ("deliver", *THIRD), ("deliver", 0, 2, 1, 0, 9), GO_ON,
    "a view is delivered and then installed",
    ("deliver", 0, 1, 2, 2, 5), GO_ON, GO_ON,
    "an old epoch and a later one, and a change that there isn't",
    ("deliver", 1, 2, 4, 0, 8), ("deliver", 0, 2, 3, 1, 2), GO_ON,
    "several came before the first was marked",
    ("deliver", 0, 0, 5, 0, 1), ("deliver", 0, 0, 6, 0, 2), GO_ON, GO_ON, resumed(1, [0]), resumed(1, [2]), resumed(1, [3]),
    "nothing is held, and what isn't delivered is cast again",
    ("switched", 0), GO_ON, GO_ON, ("switched", 1),
], node=1, ports=2, changes=2)

REPLACING = Scenario(
    "the_layer_changes_its_epoch", "replacement: two changes of the epoch", "repl", [
    "a later epoch's messages come first; the change is asked for and then made",
    ("cast", 0, 7), ("cast", 1, 1), ("deliver", 1, 2, 1, 0, 8), ("deliver", 2, 2, 2, 0, 9), ("deliver", 0, 1, 2, 1, 1),
    GO_ON,
    "what was cast in the epoch before isn't delivered any more",
    ("deliver", 0, 1, 1, 0, 7),
    "casts are held until the switch of this epoch, and then all own ones go again",
    GO_ON, ("cast", 0, 4), ("switched", 0), ("switched", 2), ("switched", 1), GO_ON, GO_ON, GO_ON, ("cast", 0, 6),
    "of a change that goes on elsewhere, the second change",
    ("deliver", 1, 0, 3, 1, 0), GO_ON, ("deliver", 1, 0, 4, 0, 1), GO_ON, ("cast", 2, 1), ("switched", 2),
    ("deliver", 2, 1, 1, 0, 7), GO_ON,
    resumed(2, [1]), resumed(2, [4]), resumed(2, [5]), resumed(1, [3]),
], node=1, ports=2, changes=2)


# ---- consensus

def estimate(sender, instance, number, adopted, message):
    return ("recv", sender, 1, instance, number, adopted, *message)


def proposal(sender, instance, number, message):
    return ("recv", sender, 2, instance, number, 0, *message)


def acknowledgement(sender, instance, number):
    return ("recv", sender, 3, instance, number, 0, *FIRST)


DECIDING = Scenario(
    "a_coordinator_proposes_and_announces", "consensus at the coordinator of the first round", "cons", [
    "an acknowledgement before there is a proposal, which isn't counted",
    acknowledgement(2, 4, 1),
    "its own proposal, once in an instance",
    ("propose", 4, *FIRST), GO_ON, ("propose", 4, *SECOND),
    "the second estimate is a majority; of each sender the first one counts",
    estimate(0, 4, 1, 0, FIRST), estimate(0, 4, 1, 5, THIRD), estimate(2, 4, 1, 0, SECOND), GO_ON,
    estimate(1, 4, 1, 9, THIRD),
    "the proposal is adopted and acknowledged",
    proposal(0, 4, 1, FIRST), GO_ON, ("propose", 4, *SECOND),
    "the second acknowledgement is a majority; one of each sender counts, and it is announced once",
    acknowledgement(0, 4, 1), acknowledgement(0, 4, 1), acknowledgement(1, 4, 1), GO_ON, acknowledgement(2, 4, 1),
    "the first decision of an instance stays",
    ("decide", 0, 1, 0, 4, *SECOND), ("decide", 0, 1, 1, 4, *FIRST), GO_ON, ("decide", 0, 1, 1, 4, *SECOND),
    ("decide", 0, 2, 1, 9, *THIRD),
    "nothing moves where it is decided",
    ("advance", 4), ("suspect", 0), ("advance", 9),
], ports=3, nums=(6,))

BEST_OF_THREE = Scenario(
    "the_latest_adopted_estimate_is_proposed",
    "consensus of five nodes: the estimate of the greatest round, and of equal ones that of the least sender", "cons", [
    estimate(4, 1, 2, 0, FIRST), estimate(3, 1, 2, 1, SECOND), estimate(0, 1, 2, 1, THIRD), GO_ON,
    "the greatest round came first, in the middle and last",
    estimate(4, 2, 2, 1, FIRST), estimate(0, 2, 2, 0, SECOND), estimate(1, 2, 2, 0, THIRD),
    estimate(4, 3, 2, 0, FIRST), estimate(0, 3, 2, 2, SECOND), estimate(1, 3, 2, 1, THIRD),
    estimate(0, 3, 7, 0, FIRST), estimate(1, 3, 7, 4, SECOND), estimate(2, 3, 7, 6, THIRD),
    "acknowledgements of one round count for that alone, and three are wanted",
    acknowledgement(0, 3, 7), acknowledgement(0, 3, 2), acknowledgement(1, 3, 7), acknowledgement(2, 3, 7),
], node=1, nodes=5, ports=3, nums=(6,))

NOT_TAKEN = Scenario(
    "what_a_node_does_not_take", "consensus: letters that are for another round or node", "cons", [
    "estimates and acknowledgements are for the coordinator, which is node 1 in the second round and the fifth",
    estimate(0, 1, 1, 0, FIRST), estimate(2, 1, 1, 0, FIRST), estimate(0, 1, 3, 0, FIRST), estimate(0, 1, 0, 0, FIRST),
    acknowledgement(0, 1, 1), acknowledgement(0, 1, 2), estimate(0, 1, 2, 0, FIRST), acknowledgement(0, 1, 2),
    acknowledgement(0, 1, 0),
    "other tags and instances, and no words",
    ("recv", 0, 4, 1, 2, 0, *FIRST), ("recv", 0, 0, 1, 2, 0, *FIRST), ("recv",), ("decide",), ("propose",), ("advance", 7),
    ("suspect", 0), ("suspect", 2),
    "a proposal of an earlier round, of the same and of a later one",
    proposal(2, 1, 3, SECOND), proposal(0, 1, 1, FIRST), proposal(1, 1, 2, FIRST), proposal(2, 1, 3, THIRD),
    proposal(0, 1, 4, FOURTH), proposal(0, 1, 0, FIRST), ("propose", 1, *SECOND),
    "frames of other handlers than suspect",
    *(resumed(handler, [1, 0, 0]) for handler in range(4)),
], node=1, ports=3, nums=(6,))

ADVANCING = Scenario(
    "instances_go_to_their_next_round", "consensus: rounds that are given up, one after another or with a suspect", "cons", [
    "the estimate goes with the round in which it was adopted to the next coordinator",
    ("propose", 5, *FIRST), ("advance", 5), GO_ON, proposal(1, 5, 2, SECOND), ("advance", 5),
    "the suspect's instances, in the order of their numbers; not those that are decided or have another coordinator",
    ("propose", 9, *THIRD), ("propose", 2, *FIRST), ("propose", 7, *FOURTH), ("propose", 3, *FIRST),
    ("decide", 0, 1, 1, 3, *FIRST), GO_ON,
    ("suspect", 0), GO_ON, GO_ON, GO_ON, ("suspect", 2), GO_ON, ("suspect", 3), resumed(4, [0, 1, 1]), resumed(4, [1, 1, 2]),
    resumed(4, []),
    "the last round is the greatest number",
    proposal(0, 8, GREATEST, FIFTH), ("advance", 8), ("advance", 8),
], node=2, ports=3, nums=(6,))

ALONE = Scenario(
    "one_node_decides_alone", "consensus of one node, which coordinates every round", "cons", [
    ("propose", 1, *FIRST), estimate(0, 1, 1, 0, FIRST), proposal(0, 1, 1, FIRST), acknowledgement(0, 1, 1), ("advance", 1),
    estimate(0, 1, 2, 1, FIRST),
    ("decide", 0, 1, 1, 1, *FIRST), GO_ON,
], nodes=1, ports=3, nums=(6,))


# ---- scripted handlers

REFUSALS = ["Undeclared", "OverBound", "OffRoute", "Unbound", "OverBudget"]
ARITHMETIC, SKIPPING, ASKING, PAST_THE_END, NOTHING = range(5)
CODE = [
    [["set", "r2", 9], ["add", "r0", "x0"], ["sub", "x1", "r0"], ["copy", "x2", "r1"], ["add", "x2", "x2"], ["sub", "r3", "x3"],
     ["copy", "r1", "x1"], ["set", "x3", GREATEST], ["done", 4]],
    [["less", "x0", "x1", 2], ["set", "x2", 5], ["done", 3], ["less", "r0", "x1", 1], ["done", 2], ["done", 1]],
    [["call", 1, 2], ["later", 0, 1], ["send", "x0", 2, 3], ["deliver", 2], ["change", 1, 4], ["call", 0, 0],
     ["copy", "r3", "x1"], ["done", 2]],
    [["less", "x0", "x1", 31], ["change", 0, 0], ["later", 2, 4]],
    [],
]

INSTRUCTIONS = Scenario(
    "each_instruction_of_a_handler", "scripted handlers: registers, which stay, and locals, which go with the frame", "prog",
    [
    "sums and differences wrap round",
    (ARITHMETIC, 3, 2), (ARITHMETIC,), (ARITHMETIC, GREATEST, 0, 1, 1), (ARITHMETIC, 1, 2, 3, 4, 5),
    "an instruction is skipped, or none",
    (SKIPPING, 1, 2), (SKIPPING, 2, 2), (SKIPPING, 3, 2, 1), (SKIPPING, 7, 8), (PAST_THE_END, 0, 1), (PAST_THE_END, 1, 1),
    GO_ON, GO_ON,
    (NOTHING, 1, 2),
    "each outcome, and the frame that it goes on with",
    (ASKING, 2, 8, 7, 6, 5), GO_ON, GO_ON, GO_ON, GO_ON, GO_ON, GO_ON,
    "to a node, and to all where there is no such node",
    resumed(ASKING, [2, 2, 9]), resumed(ASKING, [2, 3, 9]), resumed(ASKING, [2, GREATEST]),
    "other frames",
    resumed(ASKING, []), resumed(ASKING, [7, 1, 4]), resumed(ASKING, [6]),
], node=1, ports=3, changes=2, nums=(5, GREATEST, 3), code=CODE)

REPLIES = Scenario(
    "replies_to_a_call", "scripted handlers: the reply to a call stands in the first two locals", "prog", [
    resumed(ASKING, [6, 9, 8, 7, 6], ("words", [21, 22, 23])), resumed(ASKING, [6, 9, 8], ("words", [21])),
    resumed(ASKING, [6, 9, 8, 7, 6], ("words", [])),
    *(resumed(ASKING, [6, 9, 8, 7, 6], ("refused", refusal)) for refusal in REFUSALS[:4]),
    "the reply to another instruction changes nothing",
    resumed(ASKING, [2, 9, 8, 7, 6], ("words", [21, 22])), resumed(ASKING, [4, 9, 8, 7, 6], ("refused", "OffRoute")),
], node=1, ports=3, changes=2, nums=(1, 2, 3, 4, 5), code=CODE)


FILES = {
    "ReferencePassing": lambda: scenarios_file(
        "Links, the detector, reliable broadcast and views: moments, and beside each what the reference program gives and "
        "shows.",
        [LINK, DETECTOR, BROADCAST, VIEWS, ONE_VIEW]),
    "ReferenceOrdering": lambda: scenarios_file(
        "The two ordered broadcasts: moments, and beside each what the reference program gives and shows.",
        [SEQUENCER, NO_SEQUENCER, ATOMIC, SKIPPED]),
    "ReferenceReplacing": lambda: scenarios_file(
        "The replacement layer: moments, and beside each what the reference program gives and shows.",
        [DELIVERING, REPLACING]),
    "ReferenceConsensus": lambda: scenarios_file(
        "Consensus: moments, and beside each what the reference program gives and shows.",
        [DECIDING, BEST_OF_THREE, NOT_TAKEN, ADVANCING, ALONE]),
    "ReferenceHandlers": lambda: scenarios_file(
        "Scripted handlers: moments, and beside each what the reference program gives and shows.", [INSTRUCTIONS, REPLIES]),
}
