import json
import random
import unittest

import generator
import samples
from helpers import answer

scripted = samples.scripted
SCRIPTS = [samples.ONE_COUNTER, samples.SMALLEST, scripted("ask_self 1; change move 2"), samples.group("cast 0 7"),
           samples.consensus("propose 1 7"), samples.group(**samples.SECOND_ROUND),
           scripted("send 1", nodes=2, crash=[{"node": 1, "tick": 2}])]


class Faults(unittest.TestCase):
    def fault(self, tree, line):
        for words in ("check", "run"):
            self.assertEqual(answer(words, tree), (f"! script {line}\n", 3))

    def test_what_is_no_json(self):
        for text in ("", '{"version":1', "[" * 200, " " * 1_048_576):
            self.fault(text, "NotJson")

    def test_every_beginning_of_a_script_is_no_json(self):
        for end in range(len(samples.ONE_COUNTER)):
            self.fault(samples.ONE_COUNTER[:end], "NotJson")

    def test_a_text_that_is_too_long(self):
        self.fault(" " * 1_048_577, "TooLong")

    def test_the_top_object(self):
        self.fault([], "WrongForm script")
        self.fault("7", "WrongForm script")
        self.fault({"version": 2, "slow": []}, "WrongForm script")
        self.fault({"version": 2}, "WrongForm version")
        self.fault('{"version":1.0}', "WrongForm version")
        self.fault({}, "Missing version")
        self.fault(scripted(x=1), "WrongForm script")

    def test_a_missing_key(self):
        tree = scripted()
        del tree["nodes"]
        self.fault(tree, "Missing nodes")

    def test_numbers_below_and_above_their_limits(self):
        self.fault(scripted(nodes=0), "WrongForm nodes")
        self.fault(scripted(nodes=9), "Over nodes 8")
        self.fault(scripted(ticks=10001), "Over ticks 10000")

    def test_microprotocols_and_their_kinds(self):
        self.fault(scripted(micros=[]), "WrongForm micros")
        self.fault(scripted(micros=[1]), "WrongForm micros")
        self.fault(scripted(micros=[{"name": "a", "kind": "zz", "handlers": 1}]), "WrongForm kind")
        self.fault(scripted(micros=[{"name": "a", "kind": "link", "handlers": 1}]), "WrongForm micros")
        self.fault(scripted(micros=[{"name": "a", "handlers": 1}]), "Missing kind")

    def test_a_key_of_another_form_of_declaration(self):
        self.fault(scripted(decls=[{"name": "a", "form": "set", "bounds": []}]), "WrongForm decls")
        self.fault(scripted(decls=[{"name": "a", "bounds": []}]), "Missing form")

    def test_items_of_do(self):
        tree = scripted("b_add 1")
        tree["do"][0]["change"] = "move"
        self.fault(tree, "WrongForm do")
        tree = scripted("b_add 1")
        tree["do"][0]["tick"] = 0
        self.fault(tree, "WrongForm tick")
        tree["do"][0]["tick"] = 3
        self.fault(tree, "Over tick 2")
        tree["do"][0]["node"] = 1
        self.fault(tree, "Over node 0")

    def test_the_thirteenth_argument(self):
        tree = scripted("b_add 1")
        tree["do"][0]["args"] = [1] * 13
        self.fault(tree, "Over args 12")
        tree["do"][0]["args"] = [1] * 12
        self.assertEqual(answer("run", tree)[1], 0)

    def test_code(self):
        tree = scripted()
        handler = tree["micros"][0]["handlers"][0]
        for code, line in (([["deliver", 5]], "WrongForm code"), ([["deliver", 4]] * 33, "Over code 32"),
                           ([["call", 7, 0]], "WrongForm code"), ([["change", 1, 0]], "WrongForm code")):
            handler["code"] = code
            self.fault(tree, line)

    def test_a_name_that_stands_twice(self):
        tree = scripted()
        tree["decls"][1]["name"] = "only_a"
        self.fault(tree, "Twice only_a")

    def test_a_name_that_is_not_defined(self):
        tree = scripted()
        tree["micros"][0]["ports"][0] = "zz"
        self.fault(tree, "Unknown zz")

    def test_too_many_microprotocols_of_one_kind(self):
        tree = json.loads(samples.SMALLEST)
        tree["nodes"] = 8
        tree["micros"] = [dict(tree["micros"][0], name=f"m{at}") for at in range(5)]
        tree["decls"][0]["micros"] = ["m0"]
        tree["events"][0]["handlers"] = ["m0.h"]
        self.fault(tree, "Over prog 32")


class CanonicalTexts(unittest.TestCase):
    def test_the_smallest_script(self):
        for text in (samples.SMALLEST, samples.SMALLEST_CANONICAL):
            self.assertEqual(answer("check", text), (samples.SMALLEST_CANONICAL + "\n", 0))

    def test_a_canonical_text_is_its_own_and_has_its_keys_in_order(self):
        for tree in SCRIPTS:
            text, status = answer("check", tree)
            self.assertEqual(status, 0)
            self.assertEqual(answer("check", text), (text, 0))
            self.assertEqual(json.dumps(json.loads(text), separators=(",", ":"), sort_keys=True) + "\n", text)

    def test_of_random_scripts(self):
        source = random.Random(5)
        for _ in range(40):
            text, status = answer("check", generator.valid_tree(source, 60))
            self.assertEqual((answer("check", text), status), ((text, 0), 0))

    def test_bent_texts_hold_a_script_or_have_a_fault(self):
        source = random.Random(11)
        statuses = {answer("check", generator.bent(source, 60))[1] for _ in range(200)}
        self.assertEqual(statuses, {0, 3})


if __name__ == "__main__":
    unittest.main()
