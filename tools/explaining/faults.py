"""What a fault says, and which of several names is the nearest to a wrong one."""


class Fault(Exception):
    """The first fault of a script.

    line    what `samoa check` writes after `! script `
    at      the offset in the text, counted in characters
    path    the path of the part in which the fault is, such as $.micros[2].kind
    cause   what is wrong, in words
    """

    def __init__(self, line, at, path, cause, nearest=None):
        super().__init__(line)
        self.line = line
        self.at = at
        self.path = path
        self.cause = cause
        self.nearest = nearest


def fault_at(part, line, cause, near=None):
    """The fault of one part of the tree."""
    return Fault(line, part.at, part.path, cause, near)


def quoted(text):
    """A text as it would stand in a message: short, and without characters that a terminal obeys."""
    shown = "".join(letter if letter.isprintable() else f"\\u{ord(letter):04x}" for letter in text[:60])
    return f'"{shown}"' + (" (cut short)" if len(text) > 60 else "")


def either(words):
    """Several words as `a`, `a or b`, `a, b or c`."""
    words = list(words)
    if len(words) < 2:
        return "".join(words)
    return ", ".join(words[:-1]) + " or " + words[-1]


def how_many(count, one, more=None):
    return f"{count} {one if count == 1 else more or one + 's'}"


def distance(left, right):
    """How many letters are to be put in, taken away, exchanged or swapped with the next to get from left to right."""
    before, row = [], list(range(len(right) + 1))
    for taken, letter in enumerate(left, 1):
        earlier, before = before, row
        row = [taken]
        for made, other in enumerate(right, 1):
            cost = min(before[made] + 1, row[made - 1] + 1, before[made - 1] + (letter != other))
            if taken > 1 and made > 1 and letter == right[made - 2] and left[taken - 2] == other:
                cost = min(cost, earlier[made - 2] + 1)
            row.append(cost)
    return row[-1]


def nearest(word, names):
    """The nearest of the names, the first among equals; None where none is near: more than a third of the letters differ."""
    best, least = None, None
    word = word[:40].lower()
    for name in names:
        found = distance(word, name.lower())
        if found <= max(1, len(word) // 3) and found < max(len(word), len(name)) and (least is None or found < least):
            best, least = name, found
    return best
