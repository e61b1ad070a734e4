"""Reading and writing JSON texts.

Written out by hand, because Python's own reader accepts more (NaN, numbers of any size, deeper nesting) and because the
difference between 1 and 1.0 counts: only a numeral without fraction, exponent and sign, below 2^64, is a number of a script.
"""
import re

WORD_LIMIT = 2 ** 64
GREATEST_DEPTH = 127


class NotJson(Exception):
    """The text is no JSON text."""


class OtherValue:
    """A JSON value that no script has: null, true, false, a negative number, a fraction, a number of 2^64 or more."""

    def __init__(self, text):
        self.text = text

    def __repr__(self):
        return f"OtherValue({self.text})"


_NUMBER = re.compile(r"-?(?:0|[1-9][0-9]*)(\.[0-9]+)?([eE][+-]?[0-9]+)?")
_FOUR_HEX_DIGITS = re.compile(r"[0-9a-fA-F]{4}")
_ESCAPES = {'"': '"', "\\": "\\", "/": "/", "b": "\b", "f": "\f", "n": "\n", "r": "\r", "t": "\t"}


def parse(data: bytes):
    """The value of a JSON text: a dict, list, str, int or OtherValue. Raises NotJson."""
    try:
        text = data.decode("utf-8", "strict")
    except UnicodeDecodeError:
        raise NotJson() from None
    value, at = _value(text, _skip_space(text, 0), 0)
    if _skip_space(text, at) != len(text):
        raise NotJson()
    return value


def _skip_space(text, at):
    while at < len(text) and text[at] in " \t\n\r":
        at += 1
    return at


def _value(text, at, depth):
    if at >= len(text):
        raise NotJson()
    first = text[at]
    if first in "{[":
        if depth == GREATEST_DEPTH:
            raise NotJson()
        return (_object if first == "{" else _list)(text, at + 1, depth + 1)
    if first == '"':
        return _string(text, at + 1)
    for word in ("null", "true", "false"):
        if text.startswith(word, at):
            return OtherValue(word), at + len(word)
    return _number(text, at)


def _number(text, at):
    found = _NUMBER.match(text, at)
    if not found:
        raise NotJson()
    numeral, fraction, exponent = found.group(0), found.group(1), found.group(2)
    if fraction is None and exponent is None and not numeral.startswith("-"):
        if len(numeral) <= 20 and int(numeral) < WORD_LIMIT:
            return int(numeral), found.end()
    if float(numeral) in (float("inf"), float("-inf")):
        raise NotJson()
    return OtherValue(numeral), found.end()


def _string(text, at):
    out = []
    while True:
        if at >= len(text):
            raise NotJson()
        character = text[at]
        if character == '"':
            return "".join(out), at + 1
        if ord(character) < 0x20:
            raise NotJson()
        if character != "\\":
            out.append(character)
            at += 1
            continue
        escape = text[at + 1:at + 2]
        if escape in _ESCAPES:
            out.append(_ESCAPES[escape])
            at += 2
        elif escape == "u":
            code_point, at = _escaped_code_point(text, at)
            out.append(chr(code_point))
        else:
            raise NotJson()


def _escaped_code_point(text, at):
    """The code point of one or two \\u escapes; a half of a pair alone is no JSON."""
    unit = _four_hex_digits(text, at + 2)
    at += 6
    if 0xDC00 <= unit < 0xE000:
        raise NotJson()
    if not 0xD800 <= unit < 0xDC00:
        return unit, at
    if text[at:at + 2] != "\\u":
        raise NotJson()
    low = _four_hex_digits(text, at + 2)
    if not 0xDC00 <= low < 0xE000:
        raise NotJson()
    return 0x10000 + (unit - 0xD800) * 1024 + (low - 0xDC00), at + 6


def _four_hex_digits(text, at):
    found = _FOUR_HEX_DIGITS.match(text, at)
    if not found:
        raise NotJson()
    return int(found.group(0), 16)


def _list(text, at, depth):
    items = []
    at = _skip_space(text, at)
    if text[at:at + 1] == "]":
        return items, at + 1
    while True:
        value, at = _value(text, _skip_space(text, at), depth)
        items.append(value)
        at = _skip_space(text, at)
        if text[at:at + 1] == "]":
            return items, at + 1
        if text[at:at + 1] != ",":
            raise NotJson()
        at += 1


def _object(text, at, depth):
    members = {}
    at = _skip_space(text, at)
    if text[at:at + 1] == "}":
        return members, at + 1
    while True:
        at = _skip_space(text, at)
        if text[at:at + 1] != '"':
            raise NotJson()
        key, at = _string(text, at + 1)
        at = _skip_space(text, at)
        if text[at:at + 1] != ":":
            raise NotJson()
        value, at = _value(text, _skip_space(text, at + 1), depth)
        members[key] = value  # of two equal keys the last value stays
        at = _skip_space(text, at)
        if text[at:at + 1] == "}":
            return members, at + 1
        if text[at:at + 1] != ",":
            raise NotJson()
        at += 1


def compact(value) -> str:
    """The compact text of a script's tree, keys in byte order. Its strings are names, so nothing is escaped."""
    if isinstance(value, dict):
        return "{" + ",".join(f'"{key}":{compact(value[key])}' for key in sorted(value, key=str.encode)) + "}"
    if isinstance(value, list):
        return "[" + ",".join(compact(item) for item in value) + "]"
    if isinstance(value, str):
        return f'"{value}"'
    return str(value)
