"""Runs a program beside the reference on random scripts, byte by byte and status by status."""
import os
import random
import subprocess

import generator
import words

HERE = os.path.dirname(os.path.abspath(__file__))
PROGRAM = os.path.join(HERE, "..", "crates", "samoa", "out", "samoa")
SECONDS = 120


def run_program(program, arguments, data):
    """What a program writes, and its status."""
    done = subprocess.run([program, *arguments], input=data, stdout=subprocess.PIPE, timeout=SECONDS)
    return done.stdout, done.returncode


def journal_lines(output):
    """The lines of the steps after a report, or None where no journal follows it."""
    _, mark, journal = output.partition(b"\nJ ")
    return journal.split(b"\n")[1:-1] if mark else None


def replay_input(text, lines):
    """A script and a journal as `replay` reads them. The script's own line feeds become spaces."""
    return text.replace(b"\n", b" ") + b"\n" + b"".join(line + b"\n" for line in lines)


def word_lists(source, workers):
    """The command lines that a script is run with; one of them is mostly a wrong one."""
    return [
        ["run"], ["run", "--calls"], ["serial", "--calls"], ["check"],
        ["run", "--cells", str(source.choice([1, 31, 32, 528, 1056, 4112, 1048576]))],
        ["run", "--workers", str(source.randrange(1, 65)), "--calls"],
        ["run", "--workers", "1", "--journal"],
        source.choice([["run", "--cells", "01"], ["serial", "--journal"], ["check", "--calls"], [], ["help"]]),
    ] + [["run", "--calls", "--workers", str(number)] for number in workers]


class Comparison:
    def __init__(self, program, source, workers=(), keep="differs"):
        self.program = program
        self.random = source
        self.workers = workers
        self.keep = keep
        self.passed = 0
        self.failed = 0

    def judge(self, what, got, wanted, data):
        if got == wanted:
            self.passed += 1
            return
        self.failed += 1
        os.makedirs(self.keep, exist_ok=True)
        name = os.path.join(self.keep, f"case{self.failed}")
        with open(name, "wb") as kept:
            kept.write(data)
        print(f"{name}: {what}\n  got    {got[1]} {got[0][:300]!r}\n  wanted {wanted[1]} {wanted[0][:300]!r}")

    def compare(self, arguments, data, what=None):
        self.judge(what or " ".join(arguments), run_program(self.program, arguments, data), words.answer(arguments, data), data)

    def compare_script(self, data):
        for arguments in word_lists(self.random, self.workers):
            self.compare(arguments, data)
        # What is drawn for a journal depends on its length, which isn't the same each time. So it has a source of its own.
        source = random.Random(self.random.random())
        if source.random() < 0.5:
            self.compare_journal(data, source)

    def compare_journal(self, data, source):
        """The program's own journal of several workers has to be complete by the reference; and both have to answer the same
        to it, and to one that was changed."""
        output, status = run_program(self.program, ["run", "--workers", "4", "--journal"], data)
        if status != 0:
            return
        lines = journal_lines(output)
        own = replay_input(data, lines)
        self.judge("its journal is complete", (b"", words.answer(["replay"], own)[1]), (b"", 0), own)
        self.compare(["replay"], own, "replay of its own journal")
        if lines:
            changed = replay_input(data, generator.changed_journal(source, lines))
            self.compare(["replay"], changed, "replay of a changed journal")


def export(folder, source, data, at, workers):
    """Writes each command line of a script as a case: NAME, NAME.args and NAME.stdout, as `rt try --cases` reads them."""
    os.makedirs(folder, exist_ok=True)
    for nth, arguments in enumerate(word_lists(source, workers)):
        name = os.path.join(folder, f"case{at}_{nth}")
        for ending, text in (("", data), (".args", "\n".join(arguments).encode()),
                             (".stdout", words.answer(arguments, data)[0])):
            with open(name + ending, "wb") as case:
                case.write(text)
