import os
import sys
import tempfile
import types
import unittest

import json_text
import kinds
import proof_files
import proof_moments
import proof_terms as terms
import proof_walk
import report
import script
import serial_run


def code_objects(code):
    yield code
    for constant in code.co_consts:
        if isinstance(constant, types.CodeType):
            yield from code_objects(constant)


def lines_of_functions(module):
    """The numbers of the lines in a module's functions."""
    with open(module.__file__, encoding="utf-8") as file:
        whole = compile(file.read(), module.__file__, "exec")
    functions = [code for code in code_objects(whole) if code.co_flags & 0x2 and code.co_name != "<lambda>"]
    return {line for code in functions for _, _, line in code.co_lines() if line and line != code.co_firstlineno}


def lines_run(modules, action):
    """The lines of modules that an action runs, by their files."""
    run = {module.__file__: set() for module in modules}

    def trace(frame, event, _):
        lines = run.get(frame.f_code.co_filename)
        if lines is None:
            return None
        if event == "line":
            lines.add(frame.f_lineno)
        return trace

    sys.settrace(trace)
    try:
        action()
    finally:
        sys.settrace(None)
    return run


def write_all():
    for maker in proof_files.makers().values():
        maker()


# What no definition of these files speaks of: the bytes of a script, its canonical text and its cells.
NOT_RUN = {
    "script": ['raise Fault("TooLong")', "except json_text.NotJson:",
               'raise Fault("NotJson") from None',
               "return json_text.compact(script.tree)",
               "return max(cells_of_budget(declaration.budget) for declaration in script.declarations)",
               "return 16 * budget + 16"],
}


class Files(unittest.TestCase):
    def test_what_is_written_stands_and_what_is_changed_is_told(self):
        with tempfile.TemporaryDirectory() as root:
            for path in proof_files.makers():
                os.makedirs(os.path.dirname(os.path.join(root, path)), exist_ok=True)
            paths = list(proof_files.makers())
            self.assertEqual(proof_files.differing(root), paths)
            self.assertEqual(proof_files.write(root), paths)
            self.assertEqual((proof_files.differing(root), proof_files.write(root)), ([], []))
            with open(os.path.join(root, paths[3]), "a", encoding="utf-8") as file:
                file.write("-- more\n")
            self.assertEqual(proof_files.differing(root), [paths[3]])

    def test_files_are_small(self):
        sizes = [len(maker().encode()) for maker in proof_files.makers().values()]
        self.assertLess(max(sizes), 40_000)
        self.assertLess(sum(sizes), 150_000)

    def test_every_line_of_the_rules_is_run(self):
        modules = [kinds, report, script, serial_run]
        run = lines_run(modules, write_all)
        for module in modules:
            with open(module.__file__, encoding="utf-8") as file:
                text = file.read().splitlines()
            missed = [text[line - 1].strip() for line in sorted(lines_of_functions(module) - run[module.__file__])]
            self.assertEqual(missed, NOT_RUN.get(module.__name__, []))


class Terms(unittest.TestCase):
    def test_trees_are_written_by_those_that_stand_before(self):
        parts = {"small": {"name": "h", "code": []}}
        written = {
            "small": {"name": "h", "code": []}, 'but small "name" (str "g")': {"name": "g", "code": []},
            'without small "code"': {"name": "h"}, "obj []": {}, 'obj (("tick", num 1) ∷ [])': {"tick": 1},
            "arr (times 4 small)": [parts["small"]] * 4, 'arr (str "a" ∷ num 2 ∷ [])': ["a", 2], "arr []": [],
            "null": json_text.OtherValue("null"),
        }
        for term, value in written.items():
            self.assertEqual(terms.tree(value, parts), term)

    def test_faults_and_instructions(self):
        told = [terms.fault(line) for line in ("Missing name", "Over ports 16", None)]
        self.assertEqual(told, ['missing "name"', 'over "ports" 16', "None"])
        self.assertEqual(terms.instruction(["less", "x0", "r3", 2]), "instr.Less (Local 0) (Reg 3) 2")

    def test_moments_and_outcomes(self):
        self.assertEqual(terms.moment(("begin", 1, [2, 3])), "Begin 1 (2 ∷ 3 ∷ [])")
        self.assertEqual(terms.moment(("resume", 1, [], ("words", []))), "goes_on 1 []")
        self.assertEqual(terms.moment(("resume", 1, [4], ("refused", "OffRoute"))), "Resume 1 (4 ∷ []) (Refused OffRoute)")
        self.assertEqual(terms.outcome(("send", None, 9, [1], [])), "gives.Send All (event 9) (1 ∷ []) []")

    def test_entries(self):
        self.assertEqual(terms.entry(("X", 2, None, "OverBudget")), "entry.Refused 2 None OverBudget")
        self.assertEqual(terms.entry(("M", 1, 0, 5, [7])), "entry.Sent 1 (One (node 0)) (event 5) (7 ∷ [])")

    def test_only_names_that_are_used_are_imported(self):
        table = [("Names", ["one", "◌∷◌", "two"]), ("Kinds", "kinds"), ("Own", ["here"])]
        body = 'here : kinds.Prog\n-- two\nhere = one "two"\n'
        self.assertEqual(terms.imports(body, table), ["use Names.{one}", "use Kinds as kinds"])


class Moments(unittest.TestCase):
    def test_a_scenario_goes_on_with_the_frame_that_was_given(self):
        scenario = proof_moments.Scenario("m", "", "views", ["a note", ("ask", 5), proof_moments.GO_ON], nodes=2, ports=1)
        note, (_, asked, _), (moment, outcome, shown) = proof_moments.steps(scenario)
        self.assertEqual((note, asked), ("a note", ("call", 10, [2, 5], [])))
        self.assertEqual((moment, outcome, shown), (("resume", 0, [], ("words", [])), ("done", []), [0, 3]))


class Walk(unittest.TestCase):
    def test_the_fault_of_an_object_is_that_of_its_own_test(self):
        self.assertEqual(proof_walk.object_fault("event", {"name": "e"}), "Missing decl")
        self.assertEqual(proof_walk.object_fault("crash", 5), "WrongForm crash")
        self.assertIsNone(proof_walk.object_fault("micro", proof_walk.LINK))


if __name__ == "__main__":
    unittest.main()
