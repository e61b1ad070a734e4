"""The second and the third pass: names that stand twice, and names that aren't defined."""
from . import grammar
from .faults import fault_at, nearest, quoted
from .reader import place


def items(part, key):
    """The items of a list that may be left out."""
    found = part.get(key)
    return [] if found is None else found.value


def names_of(parts):
    return [part.get("name") for part in parts]


# ---- twice


class Twice:
    """The second pass over one script, whose text tells the line of the first of two equal names."""

    def __init__(self, text):
        self.text = text

    def among(self, parts, what):
        first = {}
        for part in parts:
            if part.value in first:
                line, column = place(self.text, first[part.value].at)
                cause = f"{what} {quoted(part.value)} stands a second time: the first is in line {line}, column {column}"
                raise fault_at(part, f"Twice {part.value}", cause)
            first[part.value] = part

    def script(self, script):
        self.definitions(script)
        for declaration in items(script, "decls"):
            self.declaration(declaration)
        for event in items(script, "events"):
            self.among(items(event, "handlers"), "in this list the handler")
        for change in items(script, "changes"):
            self.among([row.get("event") for row in items(change, "table")], "in this table the event")
        for change in items(script, "changes"):
            for row in items(change, "table"):
                self.among(items(row, "handlers"), "in this list the handler")

    def definitions(self, script):
        self.among(names_of(items(script, "micros")), "the microprotocol")
        for micro in items(script, "micros"):
            self.among(names_of(items(micro, "handlers")), "in this microprotocol the handler")
        self.among(names_of(items(script, "decls")), "the declaration")
        self.among(names_of(items(script, "events")), "the event")
        self.among(names_of(items(script, "changes")), "the change")

    def declaration(self, declaration):
        form = declaration.get("form").value
        if form == "set":
            self.among(items(declaration, "micros"), "in this declaration the microprotocol")
        if form == "bound":
            micros = [bound.get("micro") for bound in items(declaration, "bounds")]
            self.among(micros, "in this declaration the microprotocol")


# ---- unknown


def handlers_of(micro):
    """The names of a microprotocol's handlers: those of its script, and those of its kind."""
    scripted = [name.value for name in names_of(items(micro, "handlers"))]
    return scripted + grammar.HANDLERS.get(micro.get("kind").value, [])


class Unknown:
    """The third pass, with the names that one script defines."""

    def __init__(self, script):
        self.micros = {micro.get("name").value: handlers_of(micro) for micro in items(script, "micros")}
        self.declarations = [name.value for name in names_of(items(script, "decls"))]
        self.events = [name.value for name in names_of(items(script, "events"))]
        self.changes = [name.value for name in names_of(items(script, "changes"))]

    def among(self, part, known, what):
        if part.value not in known:
            cause = f"{what} {quoted(part.value)} isn't defined" + ("" if known else ", and the script defines none")
            raise fault_at(part, f"Unknown {part.value}", cause, nearest(part.value, known))

    def micro(self, part):
        self.among(part, self.micros, "the microprotocol")

    def event(self, part):
        self.among(part, self.events, "the event")

    def change(self, part):
        self.among(part, self.changes, "the change")

    def handler(self, part):
        micro, name = part.value.split(".")
        if name in self.micros.get(micro, []):
            return
        cause = self.why_no_handler(micro, name)
        raise fault_at(part, f"Unknown {part.value}", cause, self.nearest_handler(part.value))

    def why_no_handler(self, micro, name):
        if micro not in self.micros:
            return f"the microprotocol {quoted(micro)} isn't defined"
        return f"the microprotocol {quoted(micro)} has no handler {quoted(name)}; it has {', '.join(self.micros[micro])}"

    def nearest_handler(self, name):
        """The nearest handler of the same microprotocol, where that one is defined, else of all."""
        micro, handler = name.split(".")
        if micro in self.micros:
            near = nearest(handler, self.micros[micro])
            if near:
                return f"{micro}.{near}"
        return nearest(name, [f"{other}.{one}" for other, handlers in self.micros.items() for one in handlers])

    def script(self, script):
        for micro in items(script, "micros"):
            self.of_micro(micro)
        for declaration in items(script, "decls"):
            self.of_declaration(declaration)
        for event in items(script, "events"):
            self.of_event(event)
        for change in items(script, "changes"):
            self.of_change(change)
        for item in items(script, "do"):
            self.of_item(item)

    def of_micro(self, micro):
        for port in items(micro, "ports"):
            self.event(port)
        for change in items(micro, "changes"):
            self.change(change)

    def of_declaration(self, declaration):
        form = declaration.get("form").value
        if form == "set":
            for micro in items(declaration, "micros"):
                self.micro(micro)
        if form == "bound":
            for bound in items(declaration, "bounds"):
                self.micro(bound.get("micro"))
        if form == "route":
            for handler in ends_of(declaration):
                self.handler(handler)

    def of_event(self, event):
        self.among(event.get("decl"), self.declarations, "the declaration")
        for handler in items(event, "handlers"):
            self.handler(handler)

    def of_change(self, change):
        self.event(change.get("event"))
        for row in items(change, "table"):
            self.event(row.get("event"))
            for handler in items(row, "handlers"):
                self.handler(handler)

    def of_item(self, item):
        if item.get("event") is not None:
            self.event(item.get("event"))
        else:
            self.change(item.get("change"))


def ends_of(declaration):
    """The roots of a route, and then the two ends of each edge."""
    return items(declaration, "roots") + [end for edge in items(declaration, "edges") for end in edge.value]


def check_names(script, text):
    Twice(text).script(script)
    Unknown(script).script(script)
