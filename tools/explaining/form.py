"""The first pass: the form of each object, key by key in the order of its table, from the top."""
from . import grammar
from .faults import Fault, either, fault_at, how_many, nearest, quoted
from .grammar import is_handler_name, is_name
from .reader import path_of_key


def wrong(key, part, cause, near=None):
    return fault_at(part, f"WrongForm {key}", cause, near)


# ---- tests of one object's keys


def check_object(part, key, keys, hints=None):
    """An object with keys of its table alone; `hints` has in words why a key of another table doesn't stand here."""
    if part.sort != "object":
        raise wrong(key, part, f"an object must stand here, and {part.shown()} does")
    for name, at in sorted(part.places.items(), key=lambda found: found[1]):
        if name not in keys:
            cause = (hints or {}).get(name, f"there is no key {quoted(name)} here; the keys are {', '.join(keys)}")
            raise Fault(f"WrongForm {key}", at, path_of_key(part.path, name), cause, nearest(name, keys))


def required(part, key, check, *limits):
    found = part.get(key)
    if found is None:
        raise fault_at(part, f"Missing {key}", f"the key `{key}` is missing from the object that begins here")
    check(found, key, *limits)


def optional(part, key, check, *limits):
    found = part.get(key)
    if found is not None:
        check(found, key, *limits)


# ---- numbers and names


def check_number(part, key, least, most=None):
    """A number from the least on; above the most it is over its limit."""
    if part.sort != "number":
        raise wrong(key, part, no_number(part))
    if part.value < least:
        raise wrong(key, part, f"`{key}` is at least {least}, and {part.value} stands here")
    if most is not None and part.value > most:
        raise fault_at(part, f"Over {key} {most}", f"`{key}` is at most {most}, and {part.value} stands here")


def no_number(part):
    """Why a part is no number."""
    numbers = f"a whole number from 0 to {grammar.GREATEST}, without fraction or exponent"
    if part.sort == "text" and part.value.isdigit():
        return f"{numbers}, must stand here, without quotes"
    return f"{numbers}, must stand here, and {part.shown()} does"


def check_name(part, key):
    if part.sort != "text" or not is_name(part.value):
        raise wrong(key, part, no_name(part))


def no_name(part):
    """Why a part is no name."""
    rule = "a name is 1 to 16 of the letters a to z, digits and _, a letter first"
    if part.sort != "text":
        return f"{rule}; {part.shown()} stands here"
    if len(part.value) > 16:
        return f"{rule}; {part.shown()} has {len(part.value)} characters"
    return f"{rule}; {part.shown()} isn't one"


def no_handler_name(part):
    rule = "a handler is named by two names joined by one dot, microprotocol.handler"
    return f"{rule}; {part.shown()} " + ("isn't such a name" if part.sort == "text" else "stands here")


# ---- lists without keys: the form of the items belongs to the form of the list, and comes before its limit


def check_items(part, key, least, most, fault_of):
    """A list whose items have no keys; `fault_of` tells of an item the wrong part and the cause, or None."""
    if part.sort != "list":
        raise wrong(key, part, f"a list must stand here, and {part.shown()} does")
    for item in part.value:
        found = fault_of(item)
        if found:
            raise wrong(key, *found)
    check_least(part, key, least)
    check_most(part, key, most)


def check_least(part, key, least):
    if len(part.value) < least:
        raise wrong(key, part, f"`{key}` has at least {how_many(least, 'item')}, and this list is empty")


def check_most(part, key, most):
    if len(part.value) > most:
        first = part.value[most]
        cause = f"`{key}` has at most {how_many(most, 'item')}, and this is the first of {len(part.value) - most} too many"
        raise fault_at(first, f"Over {key} {most}", cause)


def number_item(part):
    return None if part.sort == "number" else (part, no_number(part))


def name_item(part):
    return None if part.sort == "text" and is_name(part.value) else (part, no_name(part))


def handler_item(part):
    return None if part.sort == "text" and is_handler_name(part.value) else (part, no_handler_name(part))


def edge_item(part):
    if part.sort != "list":
        return part, f"an edge is a list of two handlers, and {part.shown()} stands here"
    if len(part.value) != 2:
        return part, f"an edge is a list of two handlers, and this one has {how_many(len(part.value), 'item')}"
    return handler_item(part.value[0]) or handler_item(part.value[1])


# ---- instructions


def instruction_item(part):
    if part.sort != "list" or not part.value:
        return part, f"an instruction is a list whose first item is its word, and {part.shown()} stands here"
    word = part.value[0]
    if word.sort != "text" or word.value not in grammar.INSTRUCTIONS:
        near = nearest(word.value, grammar.INSTRUCTIONS) if word.sort == "text" else None
        return word, f"{word.shown()} is no instruction; they are {', '.join(grammar.INSTRUCTIONS)}", near
    return operands(part, word.value, grammar.INSTRUCTIONS[word.value])


def operands(part, word, sorts):
    found = part.value[1:]
    if len(found) != len(sorts):
        shape = ", ".join([f'"{word}"'] + sorts)
        return part, f"`{word}` stands as [{shape}], and {how_many(len(found), 'item')} after the word here"
    for item, sort in zip(found, sorts):
        fault = place_operand(item) if sort == "place" else number_operand(item, *grammar.NUMBERS[sort])
        if fault:
            return fault
    return None


def place_operand(part):
    if part.sort == "text" and part.value in grammar.PLACES:
        return None
    near = nearest(part.value, grammar.PLACES) if part.sort == "text" else None
    return part, f"a place must stand here, one of {', '.join(grammar.PLACES)}, and {part.shown()} does", near


def number_operand(part, least, most, what):
    if part.sort == "number" and least <= part.value <= most:
        return None
    if part.sort != "number":
        return part, f"{what} must stand here: {no_number(part)}"
    return part, f"{what} must stand here, from {least} to {most}, and {part.value} does"


# ---- lists of objects


def check_list(part, key, least, most, check):
    if part.sort != "list":
        raise wrong(key, part, f"a list must stand here, and {part.shown()} does")
    check_least(part, key, least)
    check_most(part, key, most)
    for item in part.value:
        check(item, key)


# ---- the objects


def check_one_of(part, key, words):
    if part.sort != "text" or part.value not in words:
        near = nearest(part.value, words) if part.sort == "text" else None
        raise wrong(key, part, f"`{key}` is {either(words)}, and {part.shown()} stands here", near)


def named(part, key, words):
    """The kind or form that an object names, if it names one."""
    found = part.get(key) if part.sort == "object" else None
    return found.value if found is not None and found.sort == "text" and found.value in words else None


def check_handler(part, key):
    check_object(part, key, grammar.HANDLER)
    required(part, "name", check_name)
    required(part, "code", check_items, 0, 32, instruction_item)


def check_micro(part, key):
    kind = named(part, "kind", grammar.KINDS)
    keys = grammar.SCRIPTED if kind in (None, "prog") else grammar.MICRO
    no_handlers = f"a microprotocol of kind {kind} has the handlers of its kind; only kind prog has the key `handlers`"
    check_object(part, key, keys, {"handlers": no_handlers})
    required(part, "name", check_name)
    required(part, "kind", check_one_of, grammar.KINDS)
    optional(part, "nums", check_items, 0, 12, number_item)
    optional(part, "ports", check_items, 0, 16, name_item)
    optional(part, "changes", check_items, 0, 16, name_item)
    if kind == "prog":
        required(part, "handlers", check_list, 1, 16, check_handler)


def check_bound(part, key):
    check_object(part, key, grammar.BOUND)
    required(part, "micro", check_name)
    required(part, "calls", check_number, 1, 256)


def check_body(part, form):
    if form == "set":
        required(part, "micros", check_items, 1, 24, name_item)
    if form == "bound":
        required(part, "bounds", check_list, 1, 24, check_bound)
    if form == "route":
        required(part, "roots", check_items, 0, 32, handler_item)
        optional(part, "edges", check_items, 0, 256, edge_item)


def keys_of_other_forms(form):
    """Why a key of another form doesn't stand in a declaration of this one."""
    why = "`{}` stands only in a declaration of form {}, and this one is of form {}"
    others = [(key, other) for other, keys in grammar.BODIES.items() for key in keys if other != form]
    return {key: why.format(key, other, form) for key, other in others}


def check_declaration(part, key):
    form = named(part, "form", grammar.FORMS)
    bodies = grammar.BODIES[form] if form else [body for keys in grammar.BODIES.values() for body in keys]
    check_object(part, key, grammar.DECLARATION + bodies, keys_of_other_forms(form))
    required(part, "name", check_name)
    required(part, "form", check_one_of, grammar.FORMS)
    optional(part, "budget", check_number, 1, 256)
    check_body(part, form)


def check_event(part, key):
    check_object(part, key, grammar.EVENT)
    required(part, "name", check_name)
    required(part, "decl", check_name)
    required(part, "handlers", check_items, 0, 4, handler_item)


def check_row(part, key):
    check_object(part, key, grammar.ROW)
    required(part, "event", check_name)
    required(part, "handlers", check_items, 0, 4, handler_item)


def check_change(part, key):
    check_object(part, key, grammar.CHANGE)
    required(part, "name", check_name)
    required(part, "event", check_name)
    required(part, "table", check_list, 1, 16, check_row)


def check_item(part, key):
    check_object(part, key, grammar.ITEM)
    causes = [name for name in ("event", "change") if part.get(name) is not None]
    if len(causes) != 1:
        what = "both of them" if causes else "none of them"
        raise wrong(key, part, f"exactly one of `event` and `change` stands in an item of `do`, and {what} here")
    required(part, "tick", check_number, 1)
    required(part, "node", check_number, 0)
    required(part, causes[0], check_name)
    optional(part, "args", check_items, 0, 12, number_item)


def check_loss(part, key):
    check_object(part, key, grammar.LOSS)
    for name in grammar.LOSS:
        required(part, name, check_number, 0)


def check_crash(part, key):
    check_object(part, key, grammar.CRASH)
    for name in grammar.CRASH:
        required(part, name, check_number, 0)


def check_version(part, key):
    if part.sort != "number" or part.value != 1:
        raise wrong(key, part, f"`version` is 1, and {part.shown()} stands here")


def check_script(part):
    check_object(part, "script", grammar.TOP)
    required(part, "version", check_version)
    required(part, "nodes", check_number, 1, 8)
    required(part, "ticks", check_number, 1, 10_000)
    required(part, "micros", check_list, 1, 24, check_micro)
    required(part, "decls", check_list, 1, 64, check_declaration)
    required(part, "events", check_list, 1, 64, check_event)
    optional(part, "changes", check_list, 0, 16, check_change)
    optional(part, "do", check_list, 0, 8_192, check_item)
    optional(part, "lose", check_list, 0, 256, check_loss)
    optional(part, "crash", check_list, 0, 8, check_crash)
