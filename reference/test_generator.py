import contextlib
import io
import os
import random
import shutil
import tempfile
import unittest

import comparison
import generator
import journal
import samples
import script as scripts
import words

HERE = os.path.dirname(os.path.abspath(__file__))


class RandomTexts(unittest.TestCase):
    def test_the_same_seed_gives_the_same_texts(self):
        first, second = (list(generator.texts(random.Random(3), 12, 40, 60)) for _ in range(2))
        self.assertEqual(first, second)

    def test_every_form_has_scripts_within_the_limit(self):
        for form in generator.FORMS:
            tree = generator.valid_tree(random.Random(2), 3_000, form)
            answer, status = words.answer(["serial"], samples.text(tree).encode())
            self.assertEqual(status, 0)
            self.assertLessEqual(int(answer.splitlines()[-1].split()[1]), 3_000)

    def test_all_kinds_and_forms_of_declarations_come_about(self):
        source = random.Random(4)
        trees = [generator.valid_tree(source, 60) for _ in range(80)]
        self.assertEqual({micro["kind"] for tree in trees for micro in tree["micros"]}, set(scripts.KINDS))
        self.assertEqual({own["form"] for tree in trees for own in tree["decls"]}, {"set", "bound", "route"})

    def test_bent_texts_have_faults_of_every_pass(self):
        source = random.Random(1)
        faults = set()
        for _ in range(300):
            text, status = words.answer(["check"], generator.bent(source, 60))
            if status == 3:
                faults.add(text.decode().split()[2])
        self.assertLessEqual({"NotJson", "Missing", "WrongForm", "Over", "Twice", "Unknown"}, faults)

    def test_a_changed_journal_differs_or_exchanges_equal_lines(self):
        source = random.Random(1)
        lines = [b"a 1", b"e 1 0", b"l 1", b"r 1 0", b"n 1"]
        changed = [generator.changed_journal(source, lines) for _ in range(50)]
        self.assertGreater(sum(own != lines for own in changed), 35)


class Comparisons(unittest.TestCase):
    def setUp(self):
        self.folder = tempfile.mkdtemp()
        self.addCleanup(shutil.rmtree, self.folder)

    def compared(self, program):
        source = random.Random(1)
        out = comparison.Comparison(program, source, keep=os.path.join(self.folder, "differs"))
        for arguments in comparison.word_lists(source, [2]):
            out.compare(arguments, samples.SMALLEST.encode())
        return out.passed, out.failed

    def test_the_reference_agrees_with_itself(self):
        self.assertEqual(self.compared(os.path.join(HERE, "answer")), (9, 0))

    def test_what_differs_is_counted_and_kept(self):
        with contextlib.redirect_stdout(io.StringIO()) as printed:
            self.assertEqual(self.compared("/bin/true"), (0, 9))
        self.assertEqual(len(os.listdir(os.path.join(self.folder, "differs"))), 9)
        self.assertEqual(printed.getvalue().count("wanted"), 9)

    def test_the_lines_of_a_journal_are_those_after_its_first(self):
        text, _ = words.answer(["run", "--workers", "1", "--journal"], samples.ONE_COUNTER.encode())
        lines = comparison.journal_lines(text)
        self.assertEqual(lines[0], b"a 1")
        self.assertEqual(len(journal.read_steps(b"".join(line + b"\n" for line in lines))), len(lines))
        self.assertEqual(comparison.journal_lines(b"N 0 0 0\nJ 0\n"), [])
        self.assertIsNone(comparison.journal_lines(b"N 0 0 0\n"))


if __name__ == "__main__":
    unittest.main()
