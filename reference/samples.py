"""Scripts that the tests and the generator start from: two small ones as texts, and trees of three scripted
microprotocols, of the group stack (docs/GROUP.md) and of consensus alone."""
import json

ONE_COUNTER = (
    '{"version":1,"nodes":1,"ticks":1,"micros":[{"name":"c","kind":"prog","handlers":[{"name":"h","code":'
    '[["add","r0","x0"],["copy","x0","r0"],["deliver",1],["done",1]]}]}],"decls":[{"name":"d","form":"set","micros":["c"]}],'
    '"events":[{"name":"e","decl":"d","handlers":["c.h"]}],"do":[{"tick":1,"node":0,"event":"e","args":[1]},'
    '{"tick":1,"node":0,"event":"e","args":[1]}]}')
SMALLEST = (
    '{"version":1,"nodes":1,"ticks":1,"micros":[{"name":"m","kind":"prog","handlers":[{"name":"h","code":[]}]}],'
    '"decls":[{"name":"d","form":"set","micros":["m"]}],"events":[{"name":"e","decl":"d","handlers":["m.h"]}]}')
SMALLEST_CANONICAL = (
    '{"changes":[],"crash":[],"decls":[{"budget":32,"form":"set","micros":["m"],"name":"d"}],"do":[],"events":'
    '[{"decl":"d","handlers":["m.h"],"name":"e"}],"lose":[],"micros":[{"changes":[],"handlers":[{"code":[],"name":"h"}],'
    '"kind":"prog","name":"m","nums":[],"ports":[]}],"nodes":1,"ticks":1,"version":1}')

_ADD = [["add", "r0", "x0"], ["copy", "x0", "r0"], ["done", 1]]
_CODE_OF_A = {
    "add": _ADD,
    "ask_b": [["call", 0, 1], ["deliver", 2], ["done", 1]],
    "loop": [["set", "x0", 1], ["add", "r0", "x0"], ["call", 1, 0]],
    "three": [["call", 0, 1], ["call", 0, 1], ["call", 0, 1], ["deliver", 2]],
    "ask_self": [["call", 2, 1]] + _ADD,
    "later_and_call": [["later", 0, 1], ["call", 3, 1]],
    "later_twice": [["later", 3, 1], ["set", "x0", 9], ["later", 3, 1]],
    "ask_four": [["call", 4, 1], ["copy", "r1", "x1"], ["set", "x0", 7], ["call", 2, 1], ["deliver", 1], ["done", 1]],
    "ask_moving": [["call", 6, 1], ["done", 1]],
    "ask_change": [["change", 0, 1]],
    "send": [["send", "x0", 2, 1]],
    "send_all": [["set", "x1", 8], ["send", "x1", 5, 0]],
}
_PORTS_OF_A = ["b_add", "loop", "a_add", "c_tell", "four", "flood", "moving"]
_EVENTS = [
    ("a_add", "only_a", "a.add"), ("b_add", "only_b", "b.add"), ("c_tell", "b_and_c", "c.tell"), ("loop", "one_unit", "a.loop"),
    ("four", "b_and_c", "a.add b.add a.ask_b c.tell"), ("undeclared", "only_a", "a.ask_b"), ("unbound", "only_a", ""),
    ("three", "bound_of_both", "a.three"), ("ask_self", "two_calls", "a.ask_self"), ("ask_four", "two_calls", "a.ask_four"),
    ("four_by_set", "only_a", "a.ask_four"), ("by_route", "route", "a.later_and_call"), ("off_route", "no_edge", "a.ask_b"),
    ("by_set", "all", "a.later_and_call"), ("later_twice", "all", "a.later_twice"), ("moving", "b_and_c", "b.add"),
    ("ask_moving", "all", "a.ask_moving"), ("ask_change", "only_a", "a.ask_change"), ("send", "only_a", "a.send"),
    ("flood", "only_a", "a.send_all"),
]


def text(tree):
    return json.dumps(tree, separators=(",", ":"))


def event(name, declaration, handlers):
    return {"name": name, "decl": declaration, "handlers": handlers.split()}


def items(line):
    """`do` from a short form: `a_add 1; change move 1; %2 @1 a_add`, with the tick after % and the node after @."""
    out = []
    for part in line.split(";"):
        words = part.split()
        if not words:
            continue
        item = {"tick": 1, "node": 0}
        while words[0][0] in "@%":
            mark = words.pop(0)
            item["node" if mark[0] == "@" else "tick"] = int(mark[1:])
        if words[0] == "change":
            item["change"] = words[1]
            del words[0]
        else:
            item["event"] = words[0]
        item["args"] = [int(word) for word in words[1:]]
        out.append(item)
    return out


def loss(sender, receiver, first, last):
    return {"from": sender, "to": receiver, "first": first, "last": last}


def scripted(do="", nodes=1, ticks=2, **more):
    """Three scripted microprotocols with declarations of each form; `move` binds the event `moving` to c instead of b."""
    def handlers(codes):
        return [{"name": name, "code": [list(instruction) for instruction in code]} for name, code in codes.items()]

    def of_set(name, micros, **budget):
        return {"name": name, "form": "set", "micros": micros.split(), **budget}

    return {
        "version": 1, "nodes": nodes, "ticks": ticks,
        "micros": [
            {"name": "a", "kind": "prog", "ports": list(_PORTS_OF_A), "changes": ["move"], "handlers": handlers(_CODE_OF_A)},
            {"name": "b", "kind": "prog", "handlers": handlers({"add": _ADD})},
            {"name": "c", "kind": "prog", "handlers": handlers({"tell": [["add", "r0", "x0"], ["deliver", 1], ["done", 1]]})},
        ],
        "decls": [
            of_set("only_a", "a"), of_set("only_b", "b"), of_set("b_and_c", "b c"), of_set("all", "a b c"),
            of_set("one_unit", "a", budget=1),
            {"name": "bound_of_both", "form": "bound", "bounds": [{"micro": "a", "calls": 1}, {"micro": "b", "calls": 2}]},
            {"name": "two_calls", "form": "bound", "bounds": [{"micro": "a", "calls": 2}]},
            {"name": "route", "form": "route", "roots": ["a.later_and_call"],
             "edges": [["a.later_and_call", "b.add"], ["a.later_and_call", "c.tell"]]},
            {"name": "no_edge", "form": "route", "roots": ["a.ask_b"], "edges": [["b.add", "a.ask_b"]]},
        ],
        "events": [event(*parts) for parts in _EVENTS],
        "changes": [{"name": "move", "event": "a_add", "table": [{"event": "moving", "handlers": ["c.tell"]}]}],
        "do": items(do), **more,
    }


def group(do="", nodes=1, ticks=5, **more):
    """The group stack."""
    def micro(name, kind, ports, **keys):
        return {"name": name, "kind": kind, "ports": ports.split(), **keys}

    def change(name, handler):
        return {"name": name, "event": "switched", "table": [{"event": "ab_cast", "handlers": [handler]}]}

    micros = [
        micro("link", "link", "wire fd_in rb_in cons_in sq_in"),
        micro("fd", "fd", "send suspect", nums=[0, 3]),
        micro("rb", "rbcast", "send rb_up", nums=[1]),
        micro("cons", "cons", "send rb_cast decided", nums=[2]),
        micro("ab", "abcast", "rb_cast propose ab_up"),
        micro("sq", "seqcast", "send ab_up", nums=[3, 0]),
        micro("repl", "repl", "ab_cast view", changes=["to_seq", "to_cons"]),
        micro("views", "views", "cast"),
    ]
    bindings = [
        ("wire", "link.recv"), ("send", "link.send"), ("fd_in", "fd.heard"), ("rb_in", "rb.recv"), ("cons_in", "cons.recv"),
        ("sq_in", "sq.recv"), ("suspect", "cons.suspect"), ("rb_up", "cons.decide ab.heard"), ("rb_cast", "rb.cast"),
        ("decided", "ab.decided"), ("propose", "cons.propose"), ("ab_up", "repl.deliver"), ("ab_cast", "ab.cast"),
        ("view", "views.install"), ("cast", "repl.cast"), ("beat", "fd.beat"), ("nudge", "cons.advance"),
        ("ask", "views.ask"), ("switched", "repl.switched"),
    ]
    return {
        "version": 1, "nodes": nodes, "ticks": ticks, "micros": micros,
        "decls": [{"name": "all", "form": "set", "budget": 64, "micros": [own["name"] for own in micros]}],
        "events": [event(name, "all", handlers) for name, handlers in bindings],
        "changes": [change("to_seq", "sq.cast"), change("to_cons", "ab.cast")],
        "do": items(do), **more,
    }


def consensus(do="", nodes=1, ticks=5, **more):
    """Link, detector, reliable broadcast and consensus, which hands its decisions to a scripted microprotocol."""
    tree = group(do, nodes, ticks)
    micros = [micro for micro in tree["micros"] if micro["name"] in ("link", "fd", "rb", "cons")]
    micros[0]["ports"] = ["wire", "fd_in", "rb_in", "cons_in"]
    micros.append({"name": "up", "kind": "prog", "handlers": [{"name": "h", "code": [["deliver", 2]]}]})
    kept = ("wire", "send", "fd_in", "rb_in", "cons_in", "suspect", "rb_cast", "propose", "beat", "nudge")
    tree["micros"] = micros
    tree["decls"][0]["micros"] = [micro["name"] for micro in micros]
    tree["events"] = [event("rb_up", "all", "cons.decide"), event("decided", "all", "up.h")] + \
        [own for own in tree["events"] if own["name"] in kept]
    del tree["changes"]
    return {**tree, **more}


# Node 0, which coordinates the first round, can't be heard from; the others go on to a second round.
SECOND_ROUND = dict(do="@1 cast 0 7; %4 @1 nudge 1; %4 @2 nudge 1", nodes=3, ticks=9,
                    lose=[loss(0, receiver, 1, 20) for receiver in range(3)])
