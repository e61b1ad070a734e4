"""The fourth pass: what is counted over the whole script. Each test covers the whole script before the next."""
from . import grammar
from .faults import fault_at, how_many
from .names import ends_of, items


def check_ports(micro):
    kind, found = micro.get("kind").value, len(items(micro, "ports"))
    if found < grammar.PORTS[kind]:
        part = micro.get("ports") or micro
        needs = how_many(grammar.PORTS[kind], "port")
        cause = f"a microprotocol of kind {kind} needs at least {needs}, and has {found or 'none'}"
        raise fault_at(part, "WrongForm ports", cause)


def check_code(micro):
    counts = {"port": len(items(micro, "ports")), "change": len(items(micro, "changes"))}
    for handler in items(micro, "handlers"):
        for instruction in items(handler, "code"):
            check_position(instruction, counts)


def check_position(instruction, counts):
    """The position in `ports` or `changes` that an instruction names is there."""
    sorts = grammar.INSTRUCTIONS[instruction.value[0].value]
    for part, sort in zip(instruction.value[1:], sorts):
        if sort in counts and part.value >= counts[sort]:
            has = f"has {how_many(counts[sort], 'item')}, counted from 0" if counts[sort] else "is empty"
            cause = f"`{sort}s` of this microprotocol {has}, and position {part.value} isn't there"
            raise fault_at(part, "WrongForm code", cause)


def check_vertices(declaration):
    seen = set()
    for end in ends_of(declaration) if declaration.get("form").value == "route" else []:
        seen.add(end.value)
        if len(seen) > grammar.VERTICES_LIMIT:
            cause = f"the roots and the ends of edges are at most {grammar.VERTICES_LIMIT} handlers, and this is one more"
            raise fault_at(end, f"Over edges {grammar.VERTICES_LIMIT}", cause)


def check_node(part, key, nodes):
    if part.value >= nodes:
        cause = f"the script has {how_many(nodes, 'node')}, counted from 0, and there is no node {part.value}"
        raise fault_at(part, f"Over {key} {nodes - 1}", cause)


def check_tick(part, ticks):
    if part.value > ticks:
        cause = f"the script has {how_many(ticks, 'tick')}, and tick {part.value} is after the last"
        raise fault_at(part, f"Over tick {ticks}", cause)


def check_kind(script, kind, nodes):
    micros = [micro for micro in items(script, "micros") if micro.get("kind").value == kind]
    if nodes * len(micros) > grammar.BOXES_LIMIT:
        part = micros[grammar.BOXES_LIMIT // nodes].get("kind")
        counted = f"{how_many(nodes, 'node')} times {how_many(len(micros), 'microprotocol')} of kind {kind}"
        cause = f"{counted} are more than {grammar.BOXES_LIMIT}; this is the first too many"
        raise fault_at(part, f"Over {kind} {grammar.BOXES_LIMIT}", cause)


def check_totals(script):
    nodes, ticks = script.get("nodes").value, script.get("ticks").value
    for micro in items(script, "micros"):
        check_ports(micro)
    for micro in items(script, "micros"):
        check_code(micro)
    for declaration in items(script, "decls"):
        check_vertices(declaration)
    for item in items(script, "do"):
        check_node(item.get("node"), "node", nodes)
    for loss in items(script, "lose"):
        check_node(loss.get("from"), "from", nodes)
        check_node(loss.get("to"), "to", nodes)
    for crash in items(script, "crash"):
        check_node(crash.get("node"), "node", nodes)
    for item in items(script, "do"):
        check_tick(item.get("tick"), ticks)
    for kind in grammar.KINDS:
        check_kind(script, kind, nodes)
