#!/usr/bin/env python3
"""Tests of `explain`: it names the stored fault of each bent script of examples/cells, and its places are right."""
import importlib.util
import json
import subprocess
import sys
import unittest
from importlib.machinery import SourceFileLoader
from pathlib import Path

sys.dont_write_bytecode = True
tools = Path(__file__).resolve().parent
cells = tools.parent / "examples" / "cells"


def loaded(name, path):
    """A program without the ending .py as a module, none of which is run."""
    loader = SourceFileLoader(name, str(path))
    module = importlib.util.module_from_spec(importlib.util.spec_from_loader(name, loader))
    loader.exec_module(module)
    return module


sys.path.insert(0, str(tools))
explain = loaded("explain", tools / "explain")
compare = loaded("cells_compare", cells / "compare")


def bent_scripts():
    """The note, the stored answer and the text of each bent script."""
    base = json.loads((cells / "base.json").read_text())
    for line in (cells / "cells.txt").read_text().splitlines():
        note, wanted, edits = line.split("\t")
        edits = json.loads(edits)
        yield note, wanted, edits if isinstance(edits, str) else json.dumps(compare.edited(base, edits))


def answer(text):
    """What `explain` says of a text: the fault's line, line, column, path, nearest name."""
    fault, read = explain.fault_of(text.encode())
    if fault is None:
        return None
    return (fault.line, *explain.place(read, fault.at), fault.path, fault.nearest)


def script(**edits):
    """A small script with some keys exchanged, one key a line."""
    keys = {
        "version": "1",
        "nodes": "1",
        "ticks": "1",
        "micros": '[{"name": "one", "kind": "prog", "handlers": [{"name": "step", "code": [["done", 0]]}]}]',
        "decls": '[{"name": "only", "form": "set", "micros": ["one"]}]',
        "events": '[{"name": "event", "decl": "only", "handlers": ["one.step"]}]',
    }
    keys.update(edits)
    return "{\n" + ",\n".join(f'"{key}": {value}' for key, value in keys.items() if value) + "\n}\n"


class BentScripts(unittest.TestCase):
    def test_names_the_stored_fault(self):
        for note, wanted, text in bent_scripts():
            with self.subTest(note=note, text=text[:80]):
                fault, read = explain.fault_of(text.encode())
                self.assertEqual("accepted" if fault is None else fault.line, wanted)
                if fault is not None:
                    self.assertLessEqual(0, fault.at)
                    self.assertLessEqual(fault.at, len(read))
                    self.assertTrue(fault.path.startswith("$") and fault.cause)


class Places(unittest.TestCase):
    def test_no_fault(self):
        self.assertIsNone(answer(script()))

    def test_missing(self):
        self.assertEqual(answer(script(ticks=None)), ("Missing ticks", 1, 1, "$", None))

    def test_kind(self):
        micros = '[{"name": "one", "kind": "prgo", "handlers": []}]'
        self.assertEqual(answer(script(micros=micros)), ("WrongForm kind", 5, 36, "$.micros[0].kind", "prog"))

    def test_key_too_many(self):
        events = '[{"name": "event", "decl": "only", "handler": []}]'
        self.assertEqual(answer(script(events=events)), ("WrongForm events", 7, 46, "$.events[0].handler", "handlers"))

    def test_key_of_another_form(self):
        decls = '[{"name": "only", "form": "set", "roots": []}]'
        self.assertEqual(answer(script(decls=decls))[:4], ("WrongForm decls", 6, 43, "$.decls[0].roots"))

    def test_unknown_handler(self):
        events = '[{"name": "event", "decl": "only", "handlers": ["one.stop"]}]'
        self.assertEqual(answer(script(events=events)), ("Unknown one.stop", 7, 59, "$.events[0].handlers[0]", "one.step"))

    def test_twice(self):
        decls = '[{"name": "only", "form": "set", "micros": ["one", "one"]}]'
        self.assertEqual(answer(script(decls=decls)), ("Twice one", 6, 61, "$.decls[0].micros[1]", None))

    def test_instruction(self):
        micros = '[{"name": "one", "kind": "prog", "handlers": [{"name": "step", "code": [["done", 0], ["dne", 0]]}]}]'
        wanted = ("WrongForm code", 5, 97, "$.micros[0].handlers[0].code[1][0]", "done")
        self.assertEqual(answer(script(micros=micros)), wanted)

    def test_far_names_have_no_nearest(self):
        events = '[{"name": "event", "decl": "quite_other", "handlers": []}]'
        self.assertIsNone(answer(script(events=events))[4])

    def test_last_of_equal_keys(self):
        self.assertEqual(answer(script(nodes='1, "nodes": 9')), ("Over nodes 8", 3, 22, "$.nodes", None))


class NoJson(unittest.TestCase):
    def check(self, text, line, column, path):
        fault, read = explain.fault_of(text if isinstance(text, bytes) else text.encode())
        self.assertEqual((fault.line, *explain.place(read, fault.at), fault.path), ("NotJson", line, column, path))
        return fault.cause

    def test_comma_before_the_end(self):
        self.assertIn("comma", self.check('{"a": [1,\n2,\n]}', 3, 1, "$.a"))

    def test_comment(self):
        self.assertIn("comment", self.check('{"a": 1, // one\n"b": 2}', 1, 10, "$"))

    def test_unclosed_object(self):
        self.assertIn("line 1, column 7", self.check('{"a": {"b": 1', 1, 14, "$.a"))

    def test_byte_order_mark(self):
        self.assertIn("byte order mark", self.check("\ufeff{}", 1, 1, "$"))

    def test_no_text(self):
        self.assertIn("empty", self.check(" \n", 2, 1, "$"))

    def test_bytes(self):
        self.assertIn("0xff", self.check(b'{\n"a": "\xff"}', 2, 7, "$"))

    def test_zero_first(self):
        self.assertIn("zero", self.check('{"a": 01}', 1, 7, "$.a"))

    def test_word(self):
        self.assertIn("no value", self.check('{"a": [yes]}', 1, 8, "$.a[0]"))

    def test_half_a_pair(self):
        self.assertIn("pair", self.check('{"a": "\\ud800"}', 1, 8, "$.a"))

    def test_nesting(self):
        self.assertIn("127", self.check("[" * 128 + "]" * 128, 1, 128, "$"))


class TheProgram(unittest.TestCase):
    def run_with(self, words, data=b""):
        return subprocess.run([str(tools / "explain"), *words], input=data, capture_output=True)

    def test_statuses(self):
        self.assertEqual(self.run_with([], script().encode()).returncode, 0)
        self.assertEqual(self.run_with([], b"{").returncode, 1)
        self.assertEqual(self.run_with(["--other"]).returncode, 2)
        self.assertEqual(self.run_with(["one", "two"]).returncode, 2)
        self.assertEqual(self.run_with([str(tools / "no such file")]).returncode, 2)

    def test_too_long(self):
        text = script() + " " * 1_048_576
        self.assertTrue(self.run_with([], text.encode()).stdout.startswith(b"! script TooLong\n"))


if __name__ == "__main__":
    unittest.main()
