"""The report of a run (docs/REPORT.md)."""
from serial_run import COMPUTATION_LIMIT


def words_text(words):
    return "".join(f" {word}" for word in words)


def first_line(script, number, admission):
    what, cause = admission.cause
    letter, name = ("E", script.events[cause].name) if what == "event" else ("B", script.changes[cause].name)
    return f"{letter} {number} {admission.tick} {admission.node} {name}{words_text(admission.arguments)}"


def entry_line(script, number, entry, calls):
    """The line of an entry, or None where it stands with `--calls` alone."""
    match entry:
        case ("X", caller, event, refusal):
            return f"X {number} {caller} {'-' if event is None else script.events[event].name} {refusal}"
        case ("D", _, micro, words):
            return f"D {number} {script.micros[micro].name}{words_text(words)}"
    if not calls:
        return None
    match entry:
        case ("C", call, caller, handler, words):
            return f"C {number} {call} {caller} {script.handler_name(handler)}{words_text(words)}"
        case ("Y", call, words):
            return f"Y {number} {call}{words_text(words)}"
        case ("W", call, event, words):
            return f"W {number} {call} {script.events[event].name}{words_text(words)}"
        case ("M", call, node, event, words):
            return f"M {number} {call} {'*' if node is None else node} {script.events[event].name}{words_text(words)}"
        case ("A", call, change, words):
            return f"A {number} {call} {script.changes[change].name}{words_text(words)}"


def last_line(number, ending):
    match ending:
        case ("ok", words):
            return f"Z {number} ok{words_text(words)}"
        case ("no", refusal):
            return f"Z {number} no {refusal}"
        case ("cut",):
            return f"Z {number} cut"


def report(script, run, calls):
    """The report of a run, with the lines of calls or without."""
    lines = []
    for number, computation in enumerate(run.computations, 1):
        lines.append(first_line(script, number, computation.admission))
        entry_lines = (entry_line(script, number, entry, calls) for entry in computation.entries)
        lines += [line for line in entry_lines if line is not None]
        lines.append(last_line(number, computation.ending))
    if run.limited:
        lines.append(f"L {COMPUTATION_LIMIT}")
    else:
        for node, boxes in enumerate(run.boxes):
            for micro, box in zip(script.micros, boxes):
                lines.append(f"S {node} {micro.name}{words_text(box.show())}")
        letters = [entry[0] for computation in run.computations for entry in computation.entries]
        lines.append(f"N {len(run.computations)} {letters.count('D')} {letters.count('X')}")
    return "".join(line + "\n" for line in lines)
