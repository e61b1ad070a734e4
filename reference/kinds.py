"""The nine kinds of microprotocols: for each the state that a microprotocol has at a node, and its handler steps.

A *moment* is what a step begins from: ("begin", handler, argument), or ("resume", handler, frame, reply) with what the
handler kept for itself and the reply that it waited for. A *reply* is ("words", list) or ("refused", name of the refusal).

An *outcome* is what a step ends in:
    ("done", reply)
    ("call", event, argument, frame)
    ("later", event, argument, frame)
    ("send", node or None for all, event, argument, frame)
    ("deliver", argument, frame)
    ("change", change, argument, frame)

A *message* has five words: epoch, origin, number, kind and value; the first three are its key.
"""

WORD_LIMIT = 2 ** 64
GREATEST_WORD = WORD_LIMIT - 1
REFUSAL_CODES = {"Undeclared": 1, "OverBound": 2, "OffRoute": 3, "Unbound": 4}


def word(words, at):
    """A word of a list; those that are missing read as 0."""
    return words[at] if at < len(words) else 0


def cut(words):
    """A list is cut after its twelfth word."""
    return list(words[:12])


def message(words, at):
    return tuple(word(words, at + offset) for offset in range(5))


def done(words=()):
    return ("done", cut(list(words)))


class Box:
    """A microprotocol at one node. `step` changes the state in place and answers the outcome."""

    def __init__(self, script, node, position):
        self.micro = script.micros[position]
        self.node = node
        self.nodes = script.nodes
        self.ports = self.micro.ports
        self.changes = self.micro.changes
        self.open()

    def num(self, at):
        return word(self.micro.nums, at)

    def call(self, port, argument, frame):
        return ("call", self.ports[port], cut(argument), cut(frame))

    def step(self, moment):
        if moment[0] == "begin":
            return self.begin(moment[1], moment[2])
        return self.resume(moment[1], moment[2], moment[3])


class Prog(Box):
    """A scripted microprotocol: four registers, and handlers made of instructions."""

    def open(self):
        self.registers = [self.num(at) for at in range(4)]

    def begin(self, handler, argument):
        return self.run(handler, 0, [word(argument, at) for at in range(4)])

    def resume(self, handler, frame, reply):
        position = word(frame, 0)
        local = [word(frame, 1 + at) for at in range(4)]
        if self.micro.code[handler][position - 1][0] == "call":
            if reply[0] == "words":
                local[0], local[1] = word(reply[1], 0), 0
            else:
                local[0], local[1] = 0, REFUSAL_CODES[reply[1]]
        return self.run(handler, position, local)

    def run(self, handler, position, local):
        """Carries out instructions from a position on, until one gives an outcome."""
        def places(place):
            return self.registers if place[0] == "r" else local

        def get(place):
            return places(place)[int(place[1])]

        def put(place, value):
            places(place)[int(place[1])] = value % WORD_LIMIT

        code = self.micro.code[handler]
        while position < len(code):
            operation, *parts = code[position]
            position += 1
            frame = [position] + local
            match operation:
                case "set":
                    put(parts[0], parts[1])
                case "copy":
                    put(parts[0], get(parts[1]))
                case "add":
                    put(parts[0], get(parts[0]) + get(parts[1]))
                case "sub":
                    put(parts[0], get(parts[0]) - get(parts[1]))
                case "less":
                    if get(parts[0]) < get(parts[1]):
                        position += parts[2]
                case "call" | "later":
                    return (operation, self.ports[parts[0]], local[:parts[1]], frame)
                case "send":
                    node = get(parts[0])
                    return ("send", node if node < self.nodes else None, self.ports[parts[1]], local[:parts[2]], frame)
                case "deliver":
                    return ("deliver", local[:parts[0]], frame)
                case "change":
                    return ("change", self.changes[parts[0]], local[:parts[1]], frame)
                case "done":
                    return ("done", local[:parts[0]])
        return ("done", [])

    def show(self):
        return list(self.registers)


class Link(Box):
    SEND, RECV = range(2)

    def open(self):
        self.sent = 0
        self.got = 0

    def begin(self, handler, argument):
        if handler == self.SEND:
            to, channel, words = word(argument, 0), word(argument, 1), argument[2:]
            self.sent += 1
            return ("send", to if to < self.nodes else None, self.ports[0], cut([self.node, channel] + words), [])
        sender, channel, words = word(argument, 0), word(argument, 1), argument[2:]
        self.got += 1
        if channel + 1 < len(self.ports):
            return self.call(channel + 1, [sender] + words, [])
        return done()

    def resume(self, handler, frame, reply):
        return done()

    def show(self):
        return [self.sent, self.got]


class Fd(Box):
    """The failure detector: who was quiet for more beats than the second number is suspected."""
    BEAT, HEARD = range(2)

    def open(self):
        self.quiet = [0] * self.nodes
        self.suspected = [False] * self.nodes

    def begin(self, handler, argument):
        if handler == self.BEAT:
            for other in range(self.nodes):
                if other != self.node:
                    self.quiet[other] = min(self.quiet[other] + 1, GREATEST_WORD)
            return self.call(0, [self.nodes, self.num(0)], [0])
        sender = word(argument, 0)
        if sender < self.nodes:
            self.quiet[sender] = 0
            self.suspected[sender] = False
        return done()

    def resume(self, handler, frame, reply):
        if handler != self.BEAT:
            return done()
        for other in range(min(word(frame, 0), self.nodes), self.nodes):
            if other != self.node and not self.suspected[other] and self.quiet[other] > self.num(1):
                self.suspected[other] = True
                return self.call(1, [other], [other + 1])
        return done(self.show())

    def show(self):
        return [sum(2 ** other for other in range(self.nodes) if self.suspected[other])]


class Rbcast(Box):
    """Reliable broadcast: what is new is passed on to all, and then handed up."""
    CAST, RECV = range(2)

    def open(self):
        self.casts = 0
        self.seen = set()     # pairs of an origin and a number

    def pass_on(self, origin, number, words):
        self.seen.add((origin, number))
        return self.call(0, [self.nodes, self.num(0), origin, number] + words, [1, origin, number] + words)

    def begin(self, handler, argument):
        if handler == self.CAST:
            self.casts = (self.casts + 1) % WORD_LIMIT
            return self.pass_on(self.node, self.casts, argument[:8])
        origin, number = word(argument, 1), word(argument, 2)
        if (origin, number) in self.seen:
            return done()
        return self.pass_on(origin, number, argument[3:11])

    def resume(self, handler, frame, reply):
        part, origin, number, words = word(frame, 0), word(frame, 1), word(frame, 2), frame[3:]
        if part == 1:
            return self.call(1, [origin, number] + words, [2, origin, number] if handler == self.CAST else [2])
        return done([origin, number]) if handler == self.CAST else done()

    def show(self):
        return [self.casts, len(self.seen)]


class Cons(Box):
    """Consensus in rounds, each with a coordinator; any number of instances side by side."""
    PROPOSE, RECV, DECIDE, ADVANCE, SUSPECT = range(5)
    ESTIMATE, PROPOSAL, ACKNOWLEDGEMENT = 1, 2, 3

    def open(self):
        self.rounds = {}      # by instance
        self.estimate = {}    # a message by instance
        self.adopted = {}     # by instance, the round in which the estimate was adopted
        self.decision = {}    # a message by instance
        self.kept = {}        # by instance and round: by sender, the round of its adoption and its message
        self.proposal = {}    # a message by instance and round
        self.acknowledged = {}   # senders by instance and round
        self.announced = set()   # pairs of an instance and a round

    def coordinator(self, number):
        return (number - 1) % self.nodes

    def is_majority(self, count):
        return count >= self.nodes // 2 + 1

    def tell(self, to, tag, instance, number, adopted, words, frame=()):
        return self.call(0, [to, self.num(0), tag, instance, number, adopted] + list(words), list(frame))

    def advance(self, instance, frame):
        self.rounds[instance] = number = min(self.rounds[instance] + 1, GREATEST_WORD)
        return self.tell(self.coordinator(number), self.ESTIMATE, instance, number, self.adopted[instance],
                         self.estimate[instance], frame)

    def advance_next(self, suspected, after):
        """Advances the least undecided instance above `after` whose coordinator is suspected."""
        for instance in sorted(self.rounds):
            if (instance > after and instance not in self.decision and self.rounds[instance] >= 1
                    and self.coordinator(self.rounds[instance]) == suspected):
                return self.advance(instance, [1, suspected, instance])
        return done()

    def begin(self, handler, argument):
        match handler:
            case self.PROPOSE:
                instance, words = word(argument, 0), message(argument, 1)
                if self.rounds.get(instance, 0) != 0:
                    return done()
                self.estimate[instance], self.adopted[instance], self.rounds[instance] = words, 0, 1
                return self.tell(self.coordinator(1), self.ESTIMATE, instance, 1, 0, words)
            case self.RECV:
                return self.receive(argument)
            case self.DECIDE:
                tag, instance, words = word(argument, 2), word(argument, 3), message(argument, 4)
                if tag != 1 or instance in self.decision:
                    return done()
                self.decision[instance] = words
                return self.call(2, [instance] + list(words), [])
            case self.ADVANCE:
                instance = word(argument, 0)
                if self.rounds.get(instance, 0) == 0 or instance in self.decision:
                    return done()
                return self.advance(instance, [])
            case self.SUSPECT:
                return self.advance_next(word(argument, 0), -1)

    def receive(self, argument):
        sender, tag, instance, number, adopted = (word(argument, at) for at in range(5))
        words = message(argument, 5)
        key = (instance, number)
        if number == 0:
            return done()
        if tag == self.ESTIMATE:
            if self.node != self.coordinator(number) or sender in self.kept.get(key, {}):
                return done()
            kept = self.kept.setdefault(key, {})
            kept[sender] = (adopted, words)
            if self.is_majority(len(kept)) and key not in self.proposal:
                # The estimate that was adopted in the greatest round; of equal ones that of the least sender.
                best = min(kept, key=lambda other: (-kept[other][0], other))
                self.proposal[key] = kept[best][1]
                return self.tell(self.nodes, self.PROPOSAL, instance, number, 0, self.proposal[key])
        elif tag == self.PROPOSAL:
            if self.rounds.get(instance, 0) > number:
                return done()
            self.rounds[instance], self.estimate[instance], self.adopted[instance] = number, words, number
            return self.tell(self.coordinator(number), self.ACKNOWLEDGEMENT, instance, number, 0, words)
        elif tag == self.ACKNOWLEDGEMENT:
            if self.node != self.coordinator(number) or key not in self.proposal:
                return done()
            senders = self.acknowledged.setdefault(key, set())
            senders.add(sender)
            if self.is_majority(len(senders)) and key not in self.announced:
                self.announced.add(key)
                return self.call(1, [1, instance] + list(self.proposal[key]), [])
        return done()

    def resume(self, handler, frame, reply):
        if handler == self.SUSPECT and word(frame, 0) == 1:
            return self.advance_next(word(frame, 1), word(frame, 2))
        return done()

    def show(self):
        return [len(self.decision), max(self.rounds.values(), default=0)]


class Abcast(Box):
    """Atomic broadcast: what was cast is proposed to one instance of consensus after another, and handed up in their order."""
    CAST, HEARD, DECIDED = range(3)

    def open(self):
        self.next = 1
        self.proposed = 0
        self.waiting = []     # messages
        self.handed_up = set()   # keys
        self.decisions = {}   # a message by instance

    def offer(self):
        if self.waiting and self.proposed < self.next:
            self.proposed = self.next
            return self.call(1, [self.next] + list(self.waiting[0]), [0])
        return done()

    def drain(self):
        while self.next in self.decisions and self.decisions[self.next][:3] in self.handed_up:
            self.next += 1
        if self.next in self.decisions:
            return self.call(2, list(self.decisions[self.next]), [1, self.next])
        return self.offer()

    def begin(self, handler, argument):
        if handler == self.CAST:
            return self.call(0, [0] + list(message(argument, 0)), [0])
        if handler == self.HEARD:
            tag, heard = word(argument, 2), message(argument, 3)
            if tag != 0:
                return done()
            if heard[:3] not in self.handed_up and all(other[:3] != heard[:3] for other in self.waiting):
                self.waiting.append(heard)
            return self.offer()
        self.decisions.setdefault(word(argument, 0), message(argument, 1))
        return self.drain()

    def resume(self, handler, frame, reply):
        if handler != self.DECIDED or word(frame, 0) != 1:
            return done()
        if self.next == word(frame, 1):
            if self.next not in self.decisions:
                return done()
            key = self.decisions[self.next][:3]
            self.handed_up.add(key)
            self.waiting = [other for other in self.waiting if other[:3] != key]
            self.next += 1
        return self.drain()

    def show(self):
        return [self.next, len(self.waiting)]


class Seqcast(Box):
    """Ordered broadcast by one node, the sequencer, which numbers the messages."""
    CAST, RECV = range(2)

    def open(self):
        self.numbered = 0
        self.keys = set()     # of the messages that were numbered
        self.got = {}         # a message by number
        self.next = 1

    def drain(self):
        if self.next in self.got:
            return self.call(1, list(self.got[self.next]), [1, self.next])
        return done()

    def begin(self, handler, argument):
        if handler == self.CAST:
            return self.call(0, [self.num(1), self.num(0), 0] + list(message(argument, 0)), [0])
        tag = word(argument, 1)
        if tag == 0:
            words = message(argument, 2)
            if self.node != self.num(1) or words[:3] in self.keys:
                return done()
            self.numbered += 1
            self.keys.add(words[:3])
            return self.call(0, [self.nodes, self.num(0), 1, self.numbered] + list(words), [0])
        if tag == 1:
            self.got.setdefault(word(argument, 2), message(argument, 3))
            return self.drain()
        return done()

    def resume(self, handler, frame, reply):
        if handler == self.RECV and word(frame, 0) == 1:
            if self.next == word(frame, 1):
                self.next += 1
            return self.drain()
        return done()

    def show(self):
        return [self.numbered, self.next]


class Repl(Box):
    """The replacement layer: it delivers the messages of its epoch, and changes the broadcast below it."""
    CAST, DELIVER, SWITCHED = range(3)
    # Where a resumed delivery goes on: a plain message, a change, a view that was delivered, a view that was installed.
    PLAIN, CHANGE, VIEW, INSTALLED = range(4)

    def open(self):
        self.epoch = 0
        self.hold = 0
        self.count = 0
        self.own = []         # (number, kind, value) of the own casts that aren't delivered yet
        self.delivered = set()   # pairs of an origin and a number
        self.came = []        # messages

    def first(self):
        """The first message of the present epoch among those that came."""
        return next((came for came in self.came if came[0] == self.epoch), None)

    def drain(self):
        self.came = [came for came in self.came
                     if came[0] >= self.epoch and (came[1], came[2]) not in self.delivered]
        first = self.first()
        if first is None:
            return done()
        kind, value = first[3], first[4]
        if kind == 1 and value < len(self.changes):
            return ("change", self.changes[value], [self.epoch + 1], [self.CHANGE])
        return ("deliver", list(first[1:]), [self.VIEW if kind == 2 else self.PLAIN])

    def mark(self):
        marked = self.first()
        self.came.remove(marked)
        self.delivered.add((marked[1], marked[2]))
        if marked[1] == self.node:
            self.own = [own for own in self.own if own[0] != marked[2]]
        return marked

    def cast_again(self, after):
        for number, kind, value in self.own:
            if number > after:
                return self.call(0, [self.epoch, self.node, number, kind, value], [number])
        return done()

    def begin(self, handler, argument):
        if handler == self.CAST:
            kind, value = word(argument, 0), word(argument, 1)
            if kind > 2 or (kind == 1 and value >= len(self.changes)):
                return done()
            self.count += 1
            self.own.append((self.count, kind, value))
            if self.hold == 0:
                return self.call(0, [self.epoch, self.node, self.count, kind, value], [self.count])
            return done([self.count])
        if handler == self.DELIVER:
            came = message(argument, 0)
            if came[0] >= self.epoch:
                self.came.append(came)
            return self.drain()
        if word(argument, 0) != self.epoch:
            return done()
        self.hold = 0
        return self.cast_again(0)

    def resume(self, handler, frame, reply):
        part = word(frame, 0)
        if handler == self.CAST:
            return done([part])
        if handler == self.SWITCHED:
            return self.cast_again(part)
        if part == self.INSTALLED:
            return self.drain()
        if self.first() is None:
            return done()
        marked = self.mark()
        if part == self.VIEW:
            return self.call(1, [marked[4]], [self.INSTALLED])
        if part == self.CHANGE:
            self.epoch += 1
            self.hold = 1
        return self.drain()

    def show(self):
        return [self.epoch, self.count, len(self.delivered), self.hold]


class Views(Box):
    ASK, INSTALL = range(2)

    def open(self):
        self.number = 0
        self.members = 2 ** self.nodes - 1

    def begin(self, handler, argument):
        if handler == self.ASK:
            return self.call(0, [2, word(argument, 0)], [])
        self.number = (self.number + 1) % WORD_LIMIT
        self.members = word(argument, 0)
        return done()

    def resume(self, handler, frame, reply):
        return done()

    def show(self):
        return [self.number, self.members]


BOXES = {"prog": Prog, "link": Link, "fd": Fd, "rbcast": Rbcast, "cons": Cons, "abcast": Abcast, "seqcast": Seqcast,
         "repl": Repl, "views": Views}


def opening(script):
    """The boxes of all microprotocols at all nodes, as they stand at first: boxes[node][microprotocol]."""
    return [[BOXES[micro.kind](script, node, position) for position, micro in enumerate(script.micros)]
            for node in range(script.nodes)]
