import os
import subprocess
import unittest

import samples
from generated import generated_script
from helpers import answer

ANSWER = os.path.join(os.path.dirname(os.path.abspath(__file__)), "answer")


def run(*words, data=""):
    return subprocess.run([ANSWER, *words], input=data.encode(), capture_output=True)


class Words(unittest.TestCase):
    def test_other_words_get_usage_and_nothing_is_read(self):
        for line in ("", "help", "run --workers 65", "run --workers 0", "run --cells 01", "run --calls --calls", "run --cells",
                     "serial --journal", "check --calls", "replay --journal", "run x", "make", "make 0", "make 01", "make 601",
                     "make 1 --calls", "make --calls 1"):
            self.assertEqual(answer(line, ""), ("! usage\n", 2))

    def test_options_stand_in_any_order(self):
        self.assertEqual(answer("run --journal --workers 1 --calls", samples.ONE_COUNTER),
                         answer("run --calls --journal --workers 1", samples.ONE_COUNTER))

    def test_a_generated_script_is_counted_and_nothing_is_read(self):
        for n in (1, 3):
            self.assertEqual(answer(f"make {n}", ""), (f"G {n} {163 * n + 161} {16 * n} 0\n", 0))

    def test_the_generated_script_of_two(self):
        tree = generated_script(2)
        self.assertEqual((tree["nodes"], tree["ticks"]), (8, 28))
        self.assertEqual([(item["tick"], item["node"], *item["args"]) for item in tree["do"]],
                         [(1, 0, 0, 0), (9, 1, 0, 1), (17, 0, 1, 0), (25, 0, 0, 2), (26, 1, 0, 3)])

    def test_the_command_line(self):
        done = run("run", data=samples.ONE_COUNTER)
        self.assertEqual((done.returncode, done.stdout.splitlines()[-1]), (0, b"N 2 2 0"))
        done = run("run", data="{}")
        self.assertEqual((done.returncode, done.stdout), (3, b"! script Missing version\n"))
        self.assertEqual(run().returncode, 2)

    def test_the_journal_of_several_workers_is_not_answered(self):
        done = run("run", "--journal", "--workers", "2", data=samples.ONE_COUNTER)
        self.assertEqual((done.returncode, done.stdout), (98, b""))


if __name__ == "__main__":
    unittest.main()
