"""Tests of tools/picture on the examples, by the reference's reports of them. `python3 -m unittest` in tools."""
import glob
import importlib.machinery
import importlib.util
import json
import os
import subprocess
import sys
import unittest
from xml.etree import ElementTree

HERE = os.path.dirname(os.path.abspath(__file__))
EXAMPLES = os.path.join(HERE, "..", "examples")
PICTURES = os.path.join(HERE, "..", "docs", "pictures")
PICTURE = os.path.join(HERE, "picture")
sys.path.insert(0, os.path.join(HERE, "..", "reference"))
import journal  # noqa: E402
import words  # noqa: E402


def load(name):
    """A file without suffix as a module."""
    loader = importlib.machinery.SourceFileLoader(name, os.path.join(HERE, name))
    module = importlib.util.module_from_spec(importlib.util.spec_from_loader(name, loader))
    sys.modules[name] = module
    loader.exec_module(module)
    return module


sys.dont_write_bytecode = True
picture = load("picture")
pictures = load("pictures")

LONG = {"flood", "flood_within_the_limit"}


def answer(line, data):
    text, status = words.answer(line.split(), data)
    return text.decode() if status == 0 else None


def reports(line):
    """The examples whose script is accepted: name, path, report."""
    for path in sorted(glob.glob(os.path.join(EXAMPLES, "*.json"))):
        name = os.path.basename(path).removesuffix(".json")
        if name in LONG:
            continue
        with open(path, "rb") as file:
            report = answer(line, file.read())
        if report is not None:
            yield name, path, report


def elements(svg, *kinds):
    """The parts of a picture that have one of these classes."""
    return [part for part in ElementTree.fromstring(svg).iter() if set(part.get("class", "").split()) & set(kinds)
            and "translate" not in (part.get("transform") or "")]


def without_legend(svg):
    root = ElementTree.fromstring(svg)
    for part in list(root):
        if part.get("transform"):
            root.remove(part)
    return ElementTree.tostring(root)


def letters(report):
    return [line[0] for line in report.splitlines()]


class Pictures(unittest.TestCase):
    def test_each_computation_is_a_box_with_calls_or_without(self):
        seen = 0
        for line in ("run", "run --calls"):
            for name, _, report in reports(line):
                with self.subTest(name=name, words=line):
                    boxes = elements(without_legend(picture.draw(report)), "box")
                    wanted = letters(report)
                    self.assertEqual(len(boxes), wanted.count("E") + wanted.count("B"))
                    seen += len(boxes)
        self.assertGreater(seen, 300)

    def test_each_message_is_an_arrow_to_each_node_that_it_goes_to(self):
        seen = 0
        for name, _, report in reports("run --calls"):
            with self.subTest(name=name):
                nodes = 1 + max([int(line.split()[1]) for line in report.splitlines() if line[0] == "S"], default=0)
                wanted = sum(nodes if line.split()[3] == "*" else 1 for line in report.splitlines() if line[0] == "M")
                svg = without_legend(picture.draw(report))
                crosses = [part for part in elements(svg, "lost")]
                late = [part for part in elements(svg, "late")]
                self.assertEqual(len(late) % 2, 0)      # an arrow and its bar
                self.assertEqual(len(elements(svg, "message")) + len(crosses) + len(late) // 2, wanted)
                seen += wanted
        self.assertGreater(seen, 100)

    def test_a_change_that_a_handler_asked_for_has_an_arrow_from_there(self):
        with open(os.path.join(EXAMPLES, "asked_change.json"), "rb") as file:
            svg = without_legend(picture.draw(answer("run --calls", file.read())))
        self.assertEqual((len(elements(svg, "asked")), len(elements(svg, "change"))), (1, 1))

    def test_deliveries_have_marks(self):
        for name, _, report in reports("run"):
            with self.subTest(name=name):
                parts = elements(without_legend(picture.draw(report)), "delivery")
                marks = [part for part in parts if part.tag.endswith("path")]
                most = picture.MOST_MARKS
                by_computation = [0]
                for line in report.splitlines():
                    if line[0] in "EB":
                        by_computation.append(0)
                    by_computation[-1] += line[0] in "D"
                if max(by_computation) <= most - 2:
                    self.assertEqual(len(marks), sum(by_computation))

    def test_what_the_script_loses_has_a_cross_and_what_it_crashes_is_shaded(self):
        for name, lost, crashed in (("lost_messages", 2, 0), ("crashed_node", 2, 1), ("messages", 0, 0)):
            path = os.path.join(EXAMPLES, name + ".json")
            with open(path, "rb") as file:
                report = answer("run --calls", file.read())
            done = subprocess.run([PICTURE, "--script", path], input=report, capture_output=True, text=True, check=True)
            svg = without_legend(done.stdout)
            self.assertEqual((len(elements(svg, "lost")), len(elements(svg, "crashed"))), (lost, crashed), name)

    def test_each_handler_step_of_a_journal_is_a_bar_and_each_release_a_stroke(self):
        for name, _, report in reports("run --journal --workers 1"):
            steps = letters(report[report.index("J "):])[1:]
            with self.subTest(name=name):
                svg = picture.draw(report, only="journal")
                if len(steps) <= 40:                    # in one band no bar is in two pieces
                    self.assertEqual(len(elements(svg, "step")), steps.count("e"))
                self.assertEqual(len(elements(svg, "release")), steps.count("r"))

    def test_no_text_leaves_the_picture(self):
        for name, _, report in reports("run --calls"):
            for part in ElementTree.fromstring(without_legend(picture.draw(report))).iter():
                if part.tag.endswith("text"):
                    end = float(part.get("x")) + picture.LETTER * len(part.text or "")
                    self.assertLessEqual(end, picture.WIDTH, (name, part.text))

    def test_names_and_words_are_escaped(self):
        svg = picture.draw('E 1 1 0 a<b>&" 1\nZ 1 ok\nN 1 0 0\n')
        self.assertEqual(len(elements(svg, "box")), 1)

    def test_what_is_no_report_is_refused(self):
        for text in ("! script NotJson\n", "hello\n", "E 1\n", "D 1 a\n"):
            done = subprocess.run([PICTURE], input=text, capture_output=True, text=True)
            self.assertEqual((done.returncode, done.stdout), (1, ""))
            self.assertIn("line 1 is none of a report", done.stderr)

    def test_what_is_no_journal_is_refused(self):
        for step in ("l 1", "a 2", "e 1", "x 1", "a"):
            with self.assertRaises(picture.NotAReport):
                picture.draw(f"E 1 1 0 e\nZ 1 ok\nN 1 0 0\nJ 1\n{step}\n")

    def test_a_long_run_gives_a_picture_of_bounded_size(self):
        lines, steps = [], []
        for number in range(1, 8_001):
            lines += [f"E {number} {number // 40 + 1} {number % 8} event {number}", f"M {number} 1 * event 1", f"Z {number} ok"]
            steps += [f"a {number}", f"e {number} 0", f"l {number}", f"r {number} 0", f"n {number}"]
        report = "\n".join(lines + ["N 8000 0 0", f"J {len(steps)}"] + steps) + "\n"
        svg = picture.draw(report)
        self.assertEqual(len(elements(without_legend(svg), "box")), picture.MOST_COMPUTATIONS)
        self.assertLess(len(svg), 5_000_000)

    def test_stored_pictures_are_well_formed_and_stand_alone(self):
        stored = sorted(glob.glob(os.path.join(PICTURES, "*.svg")))
        self.assertGreaterEqual(len(stored), 6)
        for path in stored:
            with open(path, encoding="utf-8") as file:
                svg = file.read()
            ElementTree.fromstring(svg)
            self.assertNotIn("href", svg)

    def test_stored_pictures_are_those_that_are_drawn_now(self):
        drawn = {}
        for name in pictures.NODES:
            path, text = pictures.example(name)
            script = picture.Script(json.loads(text))
            drawn[name] = picture.draw(answer("run --calls", text), script)
        _, text = pictures.example("handed_on")
        steps = journal.journal_text(pictures.two_workers(text))
        drawn["handed_on"] = picture.draw(answer("run", text) + steps, only="journal")
        for name, svg in drawn.items():
            with open(os.path.join(PICTURES, name + ".svg"), encoding="utf-8") as file:
                self.assertEqual(file.read(), svg, name)


if __name__ == "__main__":
    unittest.main()
