import random
import unittest

import generator
import samples
from helpers import answer, lines, steps, whole_report
from journal import MOST_CELLS, ActiveCall, Core, leads_to, step_line
from report import report
from script import read_script
from serial_run import Admission, Batches, history

scripted = samples.scripted
IN_TURN = ("a 1 / a 2 / e 1 0 / l 1 / e 1 0 / l 1 / e 1 0 / l 1 / n 1 / e 2 0 / l 2 / e 2 0 / l 2 / e 2 0 / l 2 / n 2")
BY_ROUTE = ("a 1 / a 2 / e 1 0 / l 1 / e 1 0 / l 1 / e 1 2 / l 1 / e 1 2 / l 1 / e 1 0 / l 1 / r 1 0 / r 1 2 / e 1 1 / l 1 "
            "/ r 1 1 / n 1 / e 2 1 / l 2 / r 2 1 / n 2")
TWICE = scripted("ask_self 1; ask_self 1")
TWICE_REPORT = whole_report(TWICE, "E 1 1 0 ask_self 1 / Z 1 ok 2 / E 2 1 0 ask_self 1 / Z 2 ok 6", "S 0 a 6 0 0 0", "N 2 0 0")


def script_of(tree):
    return read_script((tree if isinstance(tree, str) else samples.text(tree)).encode())


def core_of(tree):
    """A core that has admitted what is due in the first tick."""
    core = Core(script_of(tree), 65_536)
    for admission in Batches(core.script).batch(1):
        core.admit(admission)
    return core


def parse(line):
    letter, *numerals = line.split()
    return (letter, *map(int, numerals))


def replay(tree, journal_lines):
    text = tree if isinstance(tree, str) else samples.text(tree)
    return answer("replay", text + "\n" + "".join(line + "\n" for line in journal_lines))


class TheCore(unittest.TestCase):
    def test_independent_computations_end_one_after_another(self):
        core = core_of(scripted("a_add 1; b_add 1"))
        core.drain()
        self.assertEqual([step_line(step) for step in core.journal],
                         steps("a 1 / a 2 / e 1 0 / l 1 / r 1 0 / n 1 / e 2 1 / l 2 / r 2 1 / n 2"))

    def test_a_second_computation_is_picked_where_it_shares_nothing_with_the_one_that_is_out(self):
        for do, picked in (("a_add 1; b_add 1", 2), ("a_add 1; a_add 1", None)):
            core = core_of(scripted(do))
            core.make(("e", 1, 0))
            self.assertEqual(core.pick(), picked)

    def test_a_bound_hands_on_after_its_last_call(self):
        core = core_of(scripted("three 5; b_add 1"))
        for line in ("e 1 0", "l 1", "e 1 1", "l 1", "e 1 0", "l 1", "e 1 1", "l 1", "e 1 0"):
            self.assertTrue(core.is_enabled(parse(line)))
            core.make(parse(line))
        self.assertEqual(core.pick(), 2)
        core.make(("l", 1))
        core.drain()
        self.assertEqual([own.ending for own in core.computations], [("ok", []), ("ok", [11])])

    def test_where_a_route_leads(self):
        tree = scripted()
        tree["decls"][7]["edges"] = [["a.later_and_call", "b.add"], ["b.add", "c.tell"], ["c.tell", "b.add"]]
        script = script_of(tree)
        route = script.declarations[7]
        root, end = route.roots[0], route.edges[-1][0]
        self.assertEqual([leads_to(route, root, micro) for micro in range(3)], [True, True, True])
        self.assertEqual([leads_to(route, end, micro) for micro in range(3)], [False, True, True])

    def test_a_route_is_done_where_no_active_or_waiting_call_leads(self):
        script = script_of(scripted("by_route 5"))
        core = Core(script, 65_536)
        core.admit(Admission(0, 1, script.items[0].cause, [5]))
        computation = core.computations[0]
        computation.active = [ActiveCall(1, (2, 0), True)]
        computation.waiting = [(1, [event.name for event in script.events].index("b_add"), [5])]
        self.assertEqual([core.may_release(computation, micro) for micro in range(3)], [True, False, False])
        computation.waiting = []
        self.assertEqual([core.may_release(computation, micro) for micro in range(3)], [True, True, False])

    def test_after_a_step_was_abandoned_nothing_is_entered(self):
        core = core_of(TWICE)
        core.make(("e", 1, 0))
        self.assertEqual(core.pick(), None)
        core.make(("b", 1))
        self.assertTrue(core.stopped)
        self.assertEqual(core.pick(), None)

    def test_cells_that_are_just_enough_and_one_too_few(self):
        self.assertEqual(answer("run --cells 527", TWICE), ("! cells 527 528\n", 3))
        self.assertEqual(answer("run --cells 528", TWICE), (TWICE_REPORT, 0))


class Journals(unittest.TestCase):
    def test_of_one_worker_with_a_bound(self):
        self.assertEqual(answer("run --workers 1 --journal", TWICE), (TWICE_REPORT + lines("J 16 / " + IN_TURN), 0))

    def test_of_one_worker_with_a_route(self):
        tree = scripted("by_route 5; b_add 1")
        wanted = whole_report(tree, "E 1 1 0 by_route 5 / D 1 c 5 / Z 1 ok / E 2 1 0 b_add 1 / Z 2 ok 6",
                              "S 0 b 6 0 0 0 / S 0 c 5 0 0 0", "N 2 1 0") + lines("J 22 / " + BY_ROUTE)
        self.assertEqual(answer("run --workers 1 --journal", tree), (wanted, 0))

    def test_a_complete_one_is_accepted(self):
        self.assertEqual(replay(TWICE, steps(IN_TURN)), (TWICE_REPORT, 0))

    def test_a_step_out_of_turn_is_named(self):
        changed = steps(IN_TURN)
        changed[7], changed[9] = changed[9], changed[7]
        self.assertEqual(replay(TWICE, changed), ("! replay NotEnabled 8\n", 7))

    def test_an_early_release_is_named(self):
        changed = steps(BY_ROUTE)
        changed[13] = "r 1 1"
        self.assertEqual(replay(scripted("by_route 5; b_add 1"), changed), ("! replay NotEnabled 14\n", 7))

    def test_every_beginning_is_unfinished(self):
        whole = steps(IN_TURN)
        for end in range(len(whole)):
            self.assertEqual(replay(TWICE, whole[:end]), (f"! replay Unfinished {1 if end <= 8 else 2}\n", 7))

    def test_what_comes_after_the_end_is_named(self):
        self.assertEqual(replay(TWICE, steps(IN_TURN) + ["n 2"]), ("! replay Trailing 17\n", 7))

    def test_lines_that_are_no_steps_are_named(self):
        for line in ("x", "a 01", "a 4294967296", "b 1 1", "e 1", ""):
            self.assertEqual(replay(TWICE, [line] + steps(IN_TURN)), ("! replay BadLine 1\n", 7))

    def test_steps_of_computations_that_are_not_there(self):
        for line in ("a 2", "e 4294967295 0", "n 0"):
            self.assertEqual(replay(TWICE, [line] + steps(IN_TURN)[1:]), ("! replay NotEnabled 1\n", 7))

    def test_a_script_that_admits_nothing(self):
        wanted = ("S 0 m 0 0 0 0\nN 0 0 0\n", 0)
        self.assertEqual(replay(samples.SMALLEST, []), wanted)
        self.assertEqual(answer("replay", samples.SMALLEST), wanted)
        self.assertEqual(replay(samples.SMALLEST, ["a 1"]), ("! replay Trailing 1\n", 7))


class AnyInterleaving(unittest.TestCase):
    """Whatever enabled steps are made, the report is that of the serial run, and the journal is accepted."""

    def run_at_random(self, tree, source):
        text = samples.text(tree)
        script = script_of(text)
        serial = history(script)
        due = [own.admission for own in serial.computations]
        core = Core(script, MOST_CELLS)
        while len(core.computations) < len(due) or core.open:
            at = len(core.computations)
            may_admit = at < len(due) and core.fits(due[at]) and (core.all_ended() or due[at].tick == due[at - 1].tick)
            options = ["a"] if may_admit else []
            for number in core.open:
                places = [(letter, number, micro) for letter in "er" for micro in range(len(script.micros))]
                options += [step for step in places + [("l", number), ("n", number)] if core.is_enabled(step)]
            step = source.choice(options)
            if step == "a":
                if core.all_ended():
                    core.clear()
                core.admit(due[at])
            else:
                core.make(step)
        self.assertEqual(report(script, core.as_run(), True), report(script, serial, True))
        self.assertEqual(replay(text, map(step_line, core.journal)), (report(script, serial, False), 0))

    def test_of_chosen_scripts(self):
        source = random.Random(7)
        for tree in (scripted("ask_self 1; by_route 5; b_add 1; ask_four 5; moving 1"), scripted("by_route 5; b_add 1"),
                     scripted("moving 1; change move 1; moving 1"), scripted("send 1", nodes=2), scripted("loop; a_add 1"),
                     scripted("ask_change 3; moving 1; %2 moving 1"), samples.group("cast 0 7"),
                     samples.group(**samples.SECOND_ROUND), samples.group("cast 0 5; cast 1 0; cast 0 6", ticks=11)):
            self.run_at_random(tree, source)

    def test_of_random_scripts(self):
        source = random.Random(11)
        for _ in range(60):
            self.run_at_random(generator.valid_tree(source, 120), source)

    def test_one_worker_with_few_cells(self):
        for tree, cells in ((samples.group(**samples.SECOND_ROUND), 1040), (TWICE, 528), (scripted("by_route 5; b_add 1"), 528)):
            text, status = answer(f"run --workers 1 --journal --cells {cells}", tree)
            self.assertEqual((text.partition("J ")[0], status), (answer("run", tree)[0], 0))


if __name__ == "__main__":
    unittest.main()
