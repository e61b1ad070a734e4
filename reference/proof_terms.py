"""Values of the reference program as terms of proof files: trees, faults, scripts, moments, outcomes and entries.

The short words that the terms use stand in the files ReferenceTrees and ReferenceWords of the two crates, which are written
by hand."""
import re

import json_text

LONG_RUN = 4
REFUSED = {"-1": "number (negative (negsuc 0))", "null": "null", "true": "boolean true"}


def chain(terms):
    """A list of terms on one line."""
    return " ∷ ".join([*terms, "[]"])


def argument(term):
    """A term in the place of an argument."""
    is_whole = re.fullmatch(r'[^ ]+|"[^"]*"', term) or re.fullmatch(r"\([^()]*\)", term)
    return term if is_whole else f"({term})"


def rows(terms, indent=4):
    """A list of terms, one on a line. A term that begins with a comment keeps that line before it."""
    space = " " * indent
    lines = [space + line for term in terms for line in f"{term} ∷".split("\n")]
    return "\n".join([*lines, f"{space}[]"])


def text(value):
    return f'"{value}"'


def words(values):
    return chain(map(str, values))


# ---- trees and faults

def tree(value, parts):
    """A JSON tree. `parts` has the names of trees that stand before: one of them is written by its name, and what differs
    from one of them by the keys in which it differs, where that is shorter."""
    for name, part in parts.items():
        if value == part and type(value) is type(part):
            return name
    if isinstance(value, dict):
        return _object(value, parts)
    if isinstance(value, list):
        return f"arr {argument(_items(value, parts))}"
    if isinstance(value, json_text.OtherValue):
        return REFUSED[value.text]
    return f"str {text(value)}" if isinstance(value, str) else f"num {value}"


def _object(value, parts):
    whole = f"obj {argument(chain(f'({text(key)}, {tree(own, parts)})' for key, own in value.items()))}"
    named = [name for name, part in parts.items() if isinstance(part, dict)]
    if not named:
        return whole
    nearest = min(named, key=lambda name: sum(value.get(key) != parts[name].get(key) for key in {**value, **parts[name]}))
    return min(whole, _changed(value, nearest, parts), key=len)


def _items(value, parts):
    if len(value) >= LONG_RUN and all(item == value[0] for item in value):
        return f"times {len(value)} {argument(tree(value[0], parts))}"
    return chain(tree(item, parts) for item in value)


def _changed(value, name, parts):
    """An object as what differs from one that stands before."""
    term = name
    for key in [key for key in parts[name] if key not in value]:
        term = f"without {argument(term)} {text(key)}"
    for key, own in value.items():
        if key not in parts[name] or parts[name][key] != own:
            term = f"but {argument(term)} {text(key)} {argument(tree(own, parts))}"
    return term


def fault(line):
    """A fault by the line in which the reference program tells it, or None."""
    if line is None:
        return "None"
    sort, name, *limit = line.split()
    word = {"Missing": "missing", "WrongForm": "wrong", "Unknown": "unknown", "Twice": "twice", "Over": "over"}[sort]
    return " ".join([word, text(name), *limit])


# ---- scripts

def place(name):
    return f"({'Reg' if name[0] == 'r' else 'Local'} {name[1]})"


def instruction(value):
    operation, *parts = value
    parts = [place(part) if isinstance(part, str) else str(part) for part in parts]
    return " ".join([f"instr.{operation.capitalize()}", *parts])


def events(numbers):
    return chain(f"event {number}" for number in numbers)


def changes(numbers):
    return chain(f"change {number}" for number in numbers)


def handlers(pairs):
    return chain(f"handler {micro} {index}" for micro, index in pairs)


def pairs(values):
    return chain(f"({first}, {second})" for first, second in values)


def record(fields):
    """A record of several lines."""
    lines = [f"{name} ={'' if str(term).startswith(chr(10)) else ' '}{term};" for name, term in fields.items()]
    return "record {\n" + "".join(f"  {line}\n" for own in lines for line in own.split("\n")) + "}"


def short_record(**fields):
    return "record { " + "; ".join(f"{name} = {term}" for name, term in fields.items()) + " }"


def block(terms):
    """A list in the place of a field's value: a line for each item."""
    return "\n" + rows(terms, 4) if terms else "[]"


def _codes(micro):
    if micro.kind != "prog":
        return []
    return [short_record(name=f"codes {text(name)}", code=chain(map(instruction, code)))
            for name, code in zip(micro.handler_names, micro.code)]


def _micro(micro):
    return record({
        "name": f"codes {text(micro.name)}", "kind": f"kinds.{micro.kind.capitalize()}", "nums": words(micro.nums),
        "ports": events(micro.ports), "changes": changes(micro.changes), "handlers": block(_codes(micro)),
    })


def _declared(declaration):
    if declaration.form == "set":
        return f"Decl.Set ({words(declaration.micros)})"
    if declaration.form == "bound":
        return f"Decl.Bound ({pairs(declaration.bounds)})"
    at = declaration.vertices.index
    roots = words(at(root) for root in declaration.roots)
    edges = pairs((at(start), at(end)) for start, end in declaration.edges)
    return " ".join(["Decl.Route", *(argument(part) for part in (handlers(declaration.vertices), roots, edges))])


def _declaration(own):
    return short_record(name=f"codes {text(own.name)}", budget=own.budget, decl=_declared(own))


def _event(own):
    return short_record(name=f"codes {text(own.name)}", decl=own.declaration, handlers=handlers(own.handlers))


def _change(own):
    table = chain(short_record(event=f"event {event}", handlers=handlers(bound)) for event, bound in own.table)
    return short_record(name=f"codes {text(own.name)}", event=f"event {own.event}", table=table)


def _cause(what, number):
    return f"causes.{what.capitalize()} ({what} {number})"


def _item(own):
    return short_record(tick=own.tick, node=f"node {own.node}", cause=_cause(*own.cause), args=words(own.arguments))


def _loss(own):
    sender, receiver, first, last = own
    return short_record(**{"from": f"node {sender}", "to": f"node {receiver}"}, first=first, last=last)


def _crash(own):
    return short_record(node=f"node {own[0]}", tick=own[1])


def stack_fields(script):
    """What a script has beside its nodes, its ticks and what happens in them."""
    return {
        "micros": block([_micro(own) for own in script.micros]),
        "decls": block([_declaration(own) for own in script.declarations]),
        "events": block([_event(own) for own in script.events]),
        "changes": block([_change(own) for own in script.changes]),
    }


def happening_fields(script):
    """Its nodes, its ticks and what happens in them."""
    return {
        "nodes": script.nodes, "ticks": script.ticks,
        "does": block([_item(own) for own in script.items]),
        "losses": block([_loss(own) for own in script.losses]),
        "crashes": block([_crash(own) for own in script.crashes]),
    }


# ---- moments and outcomes

def setup(script, micro, node):
    """What a microprotocol is set up with at a node."""
    codes = chain(argument(chain(map(instruction, code))) for code in micro.code)
    return short_record(node=f"node {node}", nodes=script.nodes, ports=events(micro.ports), changes=changes(micro.changes),
                        nums=words(micro.nums), codes=codes)


def reply(value):
    return f"Refused {value[1]}" if value[0] == "refused" else f"Words {argument(words(value[1]))}"


def moment(value):
    if value[0] == "begin":
        return f"Begin {value[1]} {argument(words(value[2]))}"
    if value[3] == ("words", []):
        return f"goes_on {value[1]} {argument(words(value[2]))}"
    return f"Resume {value[1]} {argument(words(value[2]))} ({reply(value[3])})"


def destination(node):
    return "All" if node is None else f"(One (node {node}))"


def outcome(value):
    frame = argument(words(value[-1]))
    match value:
        case ("done", own):
            return f"gives.Done {argument(words(own))}"
        case ("call" | "later", event, own, _):
            return f"gives.{value[0].capitalize()} (event {event}) {argument(words(own))} {frame}"
        case ("send", node, event, own, _):
            return f"gives.Send {destination(node)} (event {event}) {argument(words(own))} {frame}"
        case ("deliver", own, _):
            return f"gives.Deliver {argument(words(own))} {frame}"
        case ("change", change, own, _):
            return f"gives.Change (change {change}) {argument(words(own))} {frame}"


# ---- entries

def entry(value):
    own = argument(words(value[-1])) if isinstance(value[-1], list) else None
    match value:
        case ("C", call, caller, (micro, index), _):
            return f"entry.Accepted {call} {caller} (handler {micro} {index}) {own}"
        case ("Y", call, _):
            return f"entry.Finished {call} {own}"
        case ("X", caller, event, refusal):
            return f"entry.Refused {caller} {'None' if event is None else f'(Some (event {event}))'} {refusal}"
        case ("W", call, event, _):
            return f"entry.Waiting {call} (event {event}) {own}"
        case ("M", call, node, event, _):
            return f"entry.Sent {call} {destination(node)} (event {event}) {own}"
        case ("D", call, micro, _):
            return f"entry.Delivered {call} (micro {micro}) {own}"
        case ("A", call, change, _):
            return f"entry.Asked {call} (change {change}) {own}"


def ending(value):
    match value:
        case ("ok", own):
            return f"ending.Replied (reply.Words {argument(words(own))})"
        case ("no", refusal):
            return f"ending.Replied (reply.Refused {refusal})"
        case ("cut",):
            return "ending.Cut"


# ---- files

def imports(body, table):
    """The `use` lines of those names of a table that a body has and doesn't define."""
    defined = set(re.findall(r"^(?:abbrev )?(?:pub )?(\w+) :", body, re.MULTILINE))
    bare = re.sub(r'"[^"]*"', '""', re.sub(r"^ *--.*$", "", body, flags=re.MULTILINE))
    lines = []
    for module, names in table:
        if isinstance(names, str):
            if re.search(rf"(?<![\w.]){names}\.", bare):
                lines.append(f"use {module} as {names}")
            continue
        used = [name for name in names if name not in defined and _stands_in(name, bare)]
        if used:
            lines.append(f"use {module}.{{{', '.join(used)}}}")
    return lines


def _stands_in(name, body):
    if name == "[]":
        return "[]" in body
    if name.startswith("◌"):
        return re.search(rf"\s{re.escape(name.strip('◌'))}\s", body) is not None
    return re.search(rf"(?<![\w.]){re.escape(name)}(?!\w)(?! =)", body) is not None


def file(head, body, table):
    """A proof file: what it shows, its imports and its body."""
    return f"-- {head}\n" + "\n".join(imports(body, table)) + "\n\n" + body.rstrip("\n") + "\n"
