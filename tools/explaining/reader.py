"""Reads a JSON text as a tree whose parts know where they stand, and names what is wrong where it is none."""
import re

from .faults import Fault, nearest, quoted
from .grammar import GREATEST, NESTING_LIMIT, TEXT_LIMIT

BLANKS = " \t\n\r"
NUMERAL = re.compile(r"-?(?:0|[1-9][0-9]*)(\.[0-9]+)?([eE][+-]?[0-9]+)?")
WORD = re.compile(r"[A-Za-z_][A-Za-z0-9_]*")
FOUR_DIGITS = re.compile(r"[0-9a-fA-F]{4}")
ESCAPES = {'"': '"', "\\": "\\", "/": "/", "b": "\b", "f": "\f", "n": "\n", "r": "\r", "t": "\t"}
PLAIN_KEY = re.compile(r"[A-Za-z_][A-Za-z0-9_]*")


class Part:
    """A part of the tree: its sort (object, list, text, number, other), its value, where it begins and its path.

    The value of an object is a dictionary of key to Part, the last of equal keys; `places` has where those keys stand.
    A number is one from 0 to 2^64 - 1 without fraction or exponent; null, truth values and further numbers are `other`.
    """

    def __init__(self, sort, value, at, path, text):
        self.sort = sort
        self.value = value
        self.at = at
        self.path = path
        self.text = text
        self.places = {}

    def get(self, key):
        return self.value.get(key)

    def shown(self):
        """The part in words, for a message."""
        if self.sort == "text":
            return quoted(self.value)
        if self.sort == "object":
            return "an object"
        if self.sort == "list":
            return "a list" if self.value else "an empty list"
        return self.text if len(self.text) <= 40 else self.text[:40] + "..."


def path_of_key(path, key):
    return f"{path}.{key}" if PLAIN_KEY.fullmatch(key) else f"{path}[{quoted(key)}]"


def decoded(data):
    """The text of the bytes. Where they are too many or no UTF-8, the fault."""
    if len(data) > TEXT_LIMIT:
        at = len(data[:TEXT_LIMIT].decode("utf-8", "replace"))
        cause = f"the input has {len(data)} bytes; at most {TEXT_LIMIT} are read"
        raise Fault("TooLong", at, "$", cause)
    try:
        return data.decode("utf-8")
    except UnicodeDecodeError as wrong:
        at = len(data[: wrong.start].decode("utf-8"))
        raise Fault("NotJson", at, "$", f"the byte {data[wrong.start]:#04x} here is no part of a UTF-8 text") from None


class Reader:
    """The reading of one text. `at` is the offset of the next character."""

    def __init__(self, text):
        self.text = text
        self.at = 0

    # ---- what is wrong

    def fault(self, cause, path, at=None, near=None):
        return Fault("NotJson", self.at if at is None else at, path, cause, near)

    def here(self):
        """What stands at this place, in words."""
        if self.at >= len(self.text):
            return "the end of the input"
        word = WORD.match(self.text, self.at)
        return quoted(word.group() if word else self.text[self.at])

    def comment(self):
        return self.text.startswith(("//", "/*", "#"), self.at)

    # ---- steps

    def space(self):
        while self.at < len(self.text) and self.text[self.at] in BLANKS:
            self.at += 1

    def next_is(self, letter):
        return self.text.startswith(letter, self.at)

    def take(self, letter):
        if not self.next_is(letter):
            return False
        self.at += 1
        return True

    # ---- the whole

    def read(self):
        if self.next_is("\ufeff"):
            raise self.fault("a byte order mark stands before the script; JSON has none", "$")
        self.space()
        if self.at == len(self.text):
            raise self.fault("the input is empty", "$")
        part = self.part("$", 0)
        self.space()
        if self.at < len(self.text):
            after = f"{self.here()} stands after the end of the script"
            raise self.fault("a comment stands here; JSON has none" if self.comment() else after, "$")
        return part

    def part(self, path, depth):
        if self.next_is("{"):
            return self.object(path, self.deeper(path, depth))
        if self.next_is("["):
            return self.list(path, self.deeper(path, depth))
        if self.next_is('"'):
            at = self.at
            value = self.string(path)
            return Part("text", value, at, path, self.text[at : self.at])
        return self.word_or_number(path)

    def deeper(self, path, depth):
        if depth == NESTING_LIMIT:
            raise self.fault(f"the nesting is deeper than {NESTING_LIMIT}", "$")
        return depth + 1

    # ---- objects and lists

    def object(self, path, depth):
        part = Part("object", {}, self.at, path, "{")
        self.at += 1
        self.space()
        if self.take("}"):
            return part
        while True:
            self.member(part, depth)
            self.space()
            if self.take("}"):
                return part
            self.comma(part, "}", "object")
            self.space()
            if self.next_is("}"):
                raise self.fault("a comma stands before this `}`; JSON has no comma after the last key", path)

    def member(self, part, depth):
        at = self.at
        if not self.next_is('"'):
            raise self.no_key(part)
        key = self.string(part.path)
        path = path_of_key(part.path, key)
        self.space()
        if not self.take(":"):
            raise self.fault(f"a colon must follow the key {quoted(key)}, and {self.here()} stands here", path)
        self.space()
        part.value[key] = self.part(path, depth)  # of two equal keys the last one counts
        part.places[key] = at

    def no_key(self, part):
        if self.comment():
            return self.fault("a comment stands here; JSON has none", part.path)
        if self.at == len(self.text):
            return self.unclosed(part, "object")
        if self.next_is("'") or WORD.match(self.text, self.at):
            return self.fault(f"a key stands in double quotes, and {self.here()} stands here", part.path)
        return self.fault(f"a key must stand here, and {self.here()} does", part.path)

    def list(self, path, depth):
        part = Part("list", [], self.at, path, "[")
        self.at += 1
        self.space()
        if self.take("]"):
            return part
        while True:
            part.value.append(self.part(f"{path}[{len(part.value)}]", depth))
            self.space()
            if self.take("]"):
                return part
            self.comma(part, "]", "list")
            self.space()
            if self.next_is("]"):
                raise self.fault("a comma stands before this `]`; JSON has no comma after the last item", path)

    def comma(self, part, end, sort):
        if self.take(","):
            return
        if self.at == len(self.text):
            raise self.unclosed(part, sort)
        if self.comment():
            raise self.fault("a comment stands here; JSON has none", part.path)
        raise self.fault(f"a comma or `{end}` must stand here, and {self.here()} does", part.path)

    def unclosed(self, part, sort):
        line, column = place(self.text, part.at)
        return self.fault(f"the input ends here, and the {sort} of line {line}, column {column} isn't closed", part.path)

    # ---- words and numbers

    def word_or_number(self, path):
        at = self.at
        for word in ("null", "true", "false"):
            if self.next_is(word):
                self.at += len(word)
                return Part("other", None, at, path, word)
        found = NUMERAL.match(self.text, at)
        if not found:
            raise self.no_value(path)
        self.at = found.end()
        return self.number(found, path)

    def number(self, found, path):
        numeral, at = found.group(), found.start()
        after = self.text[self.at : self.at + 1]
        if after.isdigit():
            raise self.fault("a number has no zero before its other digits", path, at)
        if after and after in ".eE":
            raise self.fault(f"a digit must follow {quoted(after)} in a number", path)
        plain = found.group(1) is None and found.group(2) is None and not numeral.startswith("-")
        if plain and len(numeral) <= 20 and int(numeral) <= GREATEST:
            return Part("number", int(numeral), at, path, numeral)
        if float(numeral) in (float("inf"), float("-inf")):
            raise self.fault("the number is too great for any number of JSON that is read here", path, at)
        return Part("other", None, at, path, numeral)

    def no_value(self, path):
        if self.at == len(self.text):
            return self.fault("the input ends where a value must stand", path)
        if self.comment():
            return self.fault("a comment stands here; JSON has none", path)
        if self.next_is("'"):
            return self.fault("a text stands in double quotes", path)
        if self.next_is("+"):
            return self.fault("a number has no plus sign", path)
        if self.next_is("."):
            return self.fault("a number begins with a digit", path)
        word = WORD.match(self.text, self.at)
        if word:
            near = nearest(word.group(), ["null", "true", "false"])
            return self.fault(f"{self.here()} is no value; a text stands in double quotes", path, near=near)
        return self.fault(f"a value must stand here, and {self.here()} does", path)

    # ---- texts

    def string(self, path):
        begun = self.at
        self.at += 1
        letters = []
        while not self.take('"'):
            if self.at == len(self.text):
                raise self.fault("the text that begins here has no closing quote", path, begun)
            letters.append(self.letter(path, begun))
        return "".join(letters)

    def letter(self, path, begun):
        letter = self.text[self.at]
        if ord(letter) < 0x20:
            if letter == "\n":
                raise self.fault("the text that begins here isn't closed on its line", path, begun)
            raise self.fault(f"the control character U+{ord(letter):04X} stands in a text; it is written as an escape", path)
        if letter == "\\":
            return self.escape(path)
        self.at += 1
        return letter

    def escape(self, path):
        after = self.text[self.at + 1 : self.at + 2]
        if after in ESCAPES and after:
            self.at += 2
            return ESCAPES[after]
        if after != "u":
            raise self.fault(f"there is no escape {quoted(chr(92) + after)}", path)
        return chr(self.code_point(path))

    def code_point(self, path):
        at = self.at
        unit = self.unit(path)
        if 0xDC00 <= unit < 0xE000:
            raise self.fault("the second half of a pair of escapes stands alone", path, at)
        if not 0xD800 <= unit < 0xDC00:
            return unit
        if not self.next_is("\\u"):
            raise self.fault("the first half of a pair of escapes stands alone", path, at)
        low = self.unit(path)
        if not 0xDC00 <= low < 0xE000:
            raise self.fault("the first half of a pair of escapes stands alone", path, at)
        return 0x10000 + (unit - 0xD800) * 1024 + (low - 0xDC00)

    def unit(self, path):
        found = FOUR_DIGITS.match(self.text, self.at + 2)
        if not found:
            raise self.fault("an escape \\u has four hexadecimal digits", path)
        self.at = found.end()
        return int(found.group(), 16)


def place(text, at):
    """The line and the column of an offset, both from 1; a column is one character."""
    return text.count("\n", 0, at) + 1, at - (text.rfind("\n", 0, at) + 1) + 1


def read(text):
    return Reader(text).read()
