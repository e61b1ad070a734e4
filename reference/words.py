"""The words of the command line, and what is answered to them (docs/REPORT.md)."""
import re

from generated import MOST_GENERATED, made_line
from journal import ReplayFault, check_journal, journal_text, read_steps, run_one_worker
from report import report
from script import Fault, canonical, cells_needed, read_script
from serial_run import history

REPLAY_LIMIT = 16_777_216
FLAGS = {"run": ["--calls", "--journal"], "serial": ["--calls"], "check": [], "replay": []}
NUMBERS = {"run": {"--workers": (1, 64), "--cells": (1, 1_048_576)}}


class Usage(Exception):
    """The words are none of the table."""


class Unsupported(Exception):
    """The answer isn't determined by the input: the journal of several workers."""


def plain_number(text, least, limit):
    if not re.fullmatch("0|[1-9][0-9]*", text, re.ASCII) or len(text) > 20 or not least <= int(text) <= limit:
        raise Usage()
    return int(text)


def read_words(words):
    """The first word, and the options by name; for `make` its number."""
    if words and words[0] == "make":
        if len(words) != 2:
            raise Usage()
        return "make", {"n": plain_number(words[1], 1, MOST_GENERATED)}
    if not words or words[0] not in FLAGS:
        raise Usage()
    word, rest = words[0], list(words[1:])
    options = {}
    while rest:
        option = rest.pop(0)
        if option in options:
            raise Usage()
        if option in FLAGS[word]:
            options[option] = True
        elif option in NUMBERS.get(word, {}) and rest:
            options[option] = plain_number(rest.pop(0), *NUMBERS[word][option])
        else:
            raise Usage()
    return word, options


def answer(words, data):
    """What is written, as bytes, and the status. `data` is the whole input, or a function that reads it."""
    try:
        word, options = read_words(words)
    except Usage:
        return b"! usage\n", 2
    if word == "make":
        return made_line(options["n"]).encode(), 0
    if callable(data):
        data = data()
    try:
        text, status = answer_input(word, options, data)
    except Fault as fault:
        text, status = f"! script {fault.line}\n", 3
    except ReplayFault as fault:
        text, status = f"! replay {fault.line}\n", 7
    return text.encode(), status


def answer_input(word, options, data):
    if word == "replay":
        if len(data) > REPLAY_LIMIT:
            raise Fault("TooLong")
        line, _, journal = data.partition(b"\n")
        return check_journal(read_script(line), read_steps(journal)), 0
    script = read_script(data)
    if word == "check":
        return canonical(script) + "\n", 0
    cells = options.get("--cells", 65_536)
    if word == "run" and cells < cells_needed(script):
        return f"! cells {cells} {cells_needed(script)}\n", 3
    calls = "--calls" in options
    run = history(script)
    text = report(script, run, calls)
    if "--journal" in options:
        if options.get("--workers", 4) != 1:
            raise Unsupported("the journal is determined for --workers 1 alone")
        core, limited = run_one_worker(script, cells)
        assert limited == run.limited
        assert report(script, core.as_run(limited), calls) == text
        text += journal_text(core.journal)
    return text, 8 if run.limited else 0
