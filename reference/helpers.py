"""What the tests share: answers as text, and reports in a short form."""
import samples
import words


def answer(line, tree):
    """The text and status that are answered to a line of words and a script, as a tree, text or bytes."""
    data = samples.text(tree) if isinstance(tree, (dict, list)) else tree
    text, status = words.answer(line.split(), data.encode() if isinstance(data, str) else data)
    return text.decode(), status


def lines(text):
    """The lines of a text in which they stand between slashes."""
    return "".join(part.strip() + "\n" for part in text.split("/"))


def steps(text):
    return [part.strip() for part in text.split("/")]


def whole_report(tree, head, states, last):
    """A report from its first lines, those states that aren't four zeros, and its last line."""
    given = {tuple(state.split()[1:3]): state.strip() for state in states.split("/") if state.strip()}
    out = head
    for node in range(tree["nodes"]):
        for micro in tree["micros"]:
            out += " / " + given.pop((str(node), micro["name"]), f"S {node} {micro['name']} 0 0 0 0")
    assert not given
    return lines(out + " / " + last)
