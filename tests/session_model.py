"""A model of the machine of a session, which tests/session-runs compares with the program of rows.

It is written after crates/session_core/specs/State.antt, and shares no code with the crates. It answers the
rows of the topic `session`, which crates/rows/stdin explains.
"""

import re
from dataclasses import dataclass, field

from session_rows import ASKING, ASKS, LOGIN, Malformed, Seat, Spec, message, name_of, shown, some


class BadRow(Exception):
    """The row makes a call whose precondition does not hold."""


@dataclass
class Part:
    spec: Spec
    phase: tuple


@dataclass
class Call:
    caller: int
    parts: list
    wanted: bool = True


@dataclass
class Link:
    most: int
    waits: list = field(default_factory=list)
    given: int = 0
    unwritten: bytes = b""
    heard: bytes = b""
    before: list = field(default_factory=list)
    standing: str = "Open"

    def written(self):
        return self.given - len(self.unwritten)


# what stands in the place of a call whose parts are forgotten
LEFT = Call(0, [], False)
DONE, SETTLED = ("Answered", "Lost", "Refused", "Unsent"), ("Answered", "Lost")
NAMES = rb"-(TRYAGAIN|CLUSTERDOWN|LOADING)( |\r\n)"


class Model:
    """The machine of a session. It answers rows. Each rule that stands alone can be turned."""

    def __init__(self):
        self.links, self.free, self.calls, self.first = [], [], [], 0

    def answer(self, row):
        """What a row answers. A remark answers nothing."""
        if row[0] == "#":
            return ""
        return getattr(self, row[0].replace("-", "_"))(*row[1:])

    def session(self):
        self.__init__()
        return "OK"

    # what is there

    def link(self, number, *standings):
        """The link of this number, if it stands so."""
        link = self.links[number] if number < len(self.links) else None
        if not link or (standings and link.standing not in standings):
            raise BadRow
        return link

    def call(self, number):
        return self.calls[number - self.first] if 0 <= number - self.first < len(self.calls) else None

    def part_at(self, seat):
        call = self.call(seat.call)
        return call.parts[seat.part] if call and seat.part < len(call.parts) else None

    def numbered(self, caller):
        """The calls of a caller, with their numbers."""
        return [(n, call) for n, call in enumerate(self.calls, self.first) if call.caller == caller]

    def is_turn(self, call, caller):
        return not any(n < call and it.wanted for n, it in self.numbered(caller))

    # the rules

    def have_slot(self, one, other):
        return isinstance(one, int) and one == other

    def have_order(self, one, other):
        return "free" not in (one, other) and ("whole" in (one, other) or one == other)

    def may_be_asked(self, call, it):
        return call.wanted and it.phase[0] == "Waits"

    def lets_by(self, number, it, later):
        return it.phase[0] in DONE or (self.is_on(number, it) and self.have_slot(it.spec.order, later.spec.order))

    def is_on(self, number, it):
        return it.phase[:2] == ("Asked", number)

    def is_effective(self, it):
        return it.phase[0] in ("Asked", *SETTLED)

    def is_refusal(self, spec, reply):
        own = isinstance(spec.order, int) and reply.startswith((b"-MOVED %d " % spec.order, b"-ASK %d " % spec.order))
        return spec.may_refuse and bool(own or re.match(NAMES, reply))

    def after_refusal(self, call, left, reply):
        if not call.wanted:
            return "Unsent", "GivenUp"
        return ("Waits", left - 1) if left else ("Refused", reply)

    def after_loss(self, call, left, begun):
        if begun:
            return ("Lost",)
        return ("Waits", left) if call.wanted else ("Unsent", "GivenUp")

    def asks(self, asking, seat):
        """What is put on a link in one step."""
        return ([(ASKS, ASKING)] if asking else []) + [(seat, self.part_at(seat).spec.request)]

    def first_wait(self, link):
        return 0

    def breaks(self, link):
        """Why nobody can take what came, by what waits, or None."""
        if not link.waits:
            return "Stray"
        return "Early" if link.before[0] < link.waits[0][2] else None

    def may_ask(self, number, seat):
        call, it = self.call(seat.call), self.part_at(seat)
        if not it or not self.may_be_asked(call, it):
            return False
        for n, other in self.numbered(call.caller):
            for p in other.parts if n != seat.call else []:
                if self.have_order(p.spec.order, it.spec.order):
                    if not self.lets_by(number, p, it) if n < seat.call else self.is_effective(p):
                        return False
        return True

    def is_passed(self, seat):
        """Whether a part is overtaken."""
        call, it = self.call(seat.call), self.part_at(seat)
        return it.phase[0] == "Waits" and any(
            n > seat.call and self.have_slot(it.spec.order, p.spec.order) and p.phase[0] in SETTLED
            for n, other in self.numbered(call.caller) for p in other.parts
        )  # fmt: skip

    # links

    def open(self, most):
        number = self.free.pop() if self.free else len(self.links)
        self.links[number : number + 1] = [Link(most)]
        return str(number)

    def ask(self, number, seat, asking=False):
        link = self.link(number, "Open")
        if not self.may_ask(number, seat):
            return "false"
        it = self.part_at(seat)
        for ticket, request in self.asks(asking, seat):
            self.put(link, ticket, request)
        it.phase = "Asked", number, it.phase[-1]
        return "true"

    def put(self, link, ticket, request):
        link.waits.append((ticket, link.given, link.given + len(request)))
        link.given += len(request)
        link.unwritten += request
        return "OK"

    def asking(self, number, seat):
        return self.ask(number, seat, True)

    def login(self, number, request):
        return self.put(self.link(number, "Open"), LOGIN, request)

    def map(self, number, count, request):
        return self.put(self.link(number, "Open"), ("Map", count), request)

    def wrote(self, number, count):
        link = self.link(number, "Open", "Broken")
        if count > len(link.unwritten):
            raise BadRow
        link.unwritten = link.unwritten[count:]
        return "OK"

    def unwritten(self, number):
        link = self.link(number)
        return shown(link.unwritten if link.standing == "Open" else b"")

    def standing(self, number):
        link = self.links[number] if number < len(self.links) else None
        return some(link and link.standing)

    def hear(self, number, data):
        link = self.link(number, "Open")
        link.heard += data
        link.before += [link.written()] * len(data)
        return "OK"

    def front(self, link):
        """The length of the reply at the front, or None, and why the link breaks, or None."""
        cause = self.breaks(link) if link.heard else None
        if cause or not link.heard:
            return None, cause
        try:
            end, is_2 = message(link.heard)
        except Malformed:
            return None, "Malformed"
        if (end or len(link.heard)) > link.most:
            return None, "TooLong"
        return end, "Malformed" if end and not is_2 else None

    def take(self, number):
        link = self.link(number, "Open")
        end, cause = self.front(link)
        if cause:
            link.standing = "Broken"
            return f"Broken({cause})"
        if not end:
            return "Nothing"
        reply, link.heard, link.before = link.heard[:end], link.heard[end:], link.before[end:]
        return self.told(link.waits.pop(self.first_wait(link))[0], reply)

    def told(self, ticket, reply):
        """Notes the reply for a ticket."""
        if not isinstance(ticket, Seat):
            return shown((*ticket, reply))
        call, it = self.call(ticket.call), self.part_at(ticket)
        if not it or it.phase[0] != "Asked":
            return shown(("Back", ticket, reply))
        refusal = self.is_refusal(it.spec, reply)
        it.phase = self.after_refusal(call, it.phase[2], reply) if refusal else ("Answered", reply)
        return shown(("Kept", ticket) if it.phase[0] in ("Answered", "Refused") else ("Back", ticket, reply))

    def end(self, number):
        self.link(number, "Open", "Broken").standing = "Ended"
        return "OK"

    def lose(self, number):
        link = self.link(number, "Ended")
        if not link.waits:
            return "None"
        ticket, start, _ = link.waits.pop(0)
        begun = start < link.written()
        it = self.part_at(ticket) if isinstance(ticket, Seat) else None
        if it and it.phase[0] == "Asked":
            it.phase = self.after_loss(self.call(ticket.call), it.phase[2], begun)
        return f"Some(({name_of(ticket)}, {str(begun).lower()}))"

    def forget(self, number):
        link = self.link(number)
        if link.standing != "Ended" or link.waits:
            return "false"
        self.links[number] = None
        self.free.append(number)
        return "true"

    # calls

    def begin(self, caller, *specs):
        self.calls.append(Call(caller, [Part(it, ("Waits", it.retries)) for it in specs]))
        return str(self.first + len(self.calls) - 1)

    def give_up(self, number):
        call = self.call(number)
        if not call or not call.wanted:
            return "false"
        for it in call.parts:
            if it.phase[0] == "Waits":
                it.phase = "Unsent", "GivenUp"
        call.wanted = False
        return "true"

    def end_part(self, seat, why):
        it = self.part_at(seat)
        if not it or it.phase[0] != "Waits":
            return "false"
        it.phase = "Unsent", {"late": "Late", "no-node": "NoNode"}[why]
        return "true"

    def overtaken(self, caller, slot):
        for n, call in self.numbered(caller):
            for i, it in enumerate(call.parts):
                if it.spec.order == slot and self.is_passed(Seat(n, i)):
                    it.phase = "Unsent", "Overtaken"
                    return some(Seat(n, i))
        return "None"

    def next(self, caller):
        return some(next((n for n, call in self.numbered(caller) if call.wanted), None))

    def finish(self, number):
        call = self.call(number)
        if not call or not call.wanted or any(it.phase[0] == "Waits" for it in call.parts):
            return "None"
        if not self.is_turn(number, call.caller):
            return "None"
        call.wanted = False
        return some([it.phase for it in call.parts])

    def leave(self, number):
        """Forgets the parts of a call once nothing earlier in the order of its caller is on its way."""
        call = self.call(number)
        if not call or call.wanted or not self.is_turn(number, call.caller):
            return "false"
        is_free = all(it.spec.order == "free" for it in call.parts)
        earlier = [it for n, other in self.numbered(call.caller) if n < number and not is_free for it in other.parts]
        if any(it.phase[0] not in DONE for it in call.parts + [it for it in earlier if it.spec.order != "free"]):
            return "false"
        call.caller, call.parts = 0, []
        return "true"

    def trim(self):
        if not self.calls or self.calls[0] != LEFT:
            return "false"
        self.first += 1
        self.calls.pop(0)
        return "true"

    def part(self, seat):
        it = self.part_at(seat)
        return some(it and it.phase)
