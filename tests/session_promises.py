"""The promises of a session, judged by the rows of a run and their answers alone.

It knows nothing of a model's state or of the crates: it keeps what was asked, written, heard and told.
"""

import re
from dataclasses import dataclass, field

from session_rows import ASKING, ASKS, LOGIN, Malformed, Seat, Spec, message, name_of, shown


class Broken(Exception):
    """A promise is broken."""


def want(holds, promise):
    if not holds:
        raise Broken(promise)


@dataclass
class Story:
    """What happened on a link. An ask is its ticket and where its request begins and ends."""

    most: int
    asks: list = field(default_factory=list)
    sent: bytes = b""
    written: int = 0
    came: bytes = b""
    before: list = field(default_factory=list)
    told: int = 0
    used: int = 0
    standing: str = "Open"
    # each request was answered by its own name, in turn
    honest: bool = True

    def front(self):
        """What stands at the front of what was not taken: a reply, the beginning of one, or what breaks the link."""
        rest = self.came[self.used :]
        if not rest:
            return b"", "nothing"
        if self.told == len(self.asks) or self.before[self.used] < self.asks[self.told][2]:
            return rest, "what nobody waits for"
        try:
            end, is_2 = message(rest)
        except Malformed:
            return rest, "no message"
        if (end or len(rest)) > self.most:
            return rest, "too long"
        return rest[:end], "a beginning" if end is None else "a reply" if is_2 else "no message"


@dataclass
class Tale:
    """What happened to a part: steps, and the link of those that ask it."""

    caller: int
    spec: Spec
    steps: list = field(default_factory=list)
    reply: bytes = b""
    ended: bool = False

    def last(self):
        return self.steps[-1][0] if self.steps else "new"

    def count(self, kind):
        return sum(step[0] == kind for step in self.steps)

    def ran(self):
        return self.last() in ("asked", "settled", "lost")

    def refused_by(self, reply):
        found = re.match(rb"-(?:(MOVED|ASK) ([0-9]+) |(TRYAGAIN|CLUSTERDOWN|LOADING)[ \r])", reply)
        own = found and (found[3] or found[2] == str(self.spec.order).encode())
        return self.spec.may_refuse and bool(own)


class Judge:
    """Says which promise is broken by rows and their answers. It knows nothing of the model's state."""

    def __init__(self, rows):
        self.links, self.parts, self.calls, self.over = {}, {}, {}, set()
        for row, answer in rows:
            name = "remark" if row[0] == "#" else row[0].replace("-", "_")
            getattr(self, f"see_{name}", self.pass_over)(answer, *row[1:])

    def pass_over(self, answer, *words):
        pass

    def see_remark(self, answer, number, words):
        self.links[number].honest = False

    def see_open(self, answer, most):
        number = int(answer)
        want(number not in self.links, "a number is one link's")
        self.links[number] = Story(most)

    def see_forget(self, answer, number):
        link = self.links[number]
        done = link.standing == "Ended" and link.told == len(link.asks)
        want((answer == "true") == done, "a link is forgotten once it ended and nobody waits on it")
        if done:
            del self.links[number]

    def see_begin(self, answer, caller, *specs):
        call = int(answer)
        want(call not in self.calls, "a number is one call's")
        self.calls[call] = caller, len(specs)
        self.parts.update({Seat(call, i): Tale(caller, spec) for i, spec in enumerate(specs)})

    def see_asking(self, answer, number, seat):
        if answer == "true":
            self.put(self.links[number], ASKS, ASKING)
        self.see_ask(answer, number, seat)

    def see_login(self, answer, number, request):
        self.put(self.links[number], LOGIN, request)

    def see_map(self, answer, number, count, request):
        self.put(self.links[number], ("Map", count), request)

    def put(self, link, ticket, request):
        want(link.standing == "Open", "nothing is asked on a link that broke")
        link.asks.append((ticket, len(link.sent), len(link.sent) + len(request)))
        link.sent += request

    def see_ask(self, answer, number, seat):
        why = self.why_not(number, seat)
        if answer == "true":
            want(why is None, why)
            self.put(self.links[number], seat, self.parts[seat].spec.request)
            self.parts[seat].steps.append(("asked", number))
        else:
            want(why, "served: what may be asked is asked")

    def why_not(self, number, seat):
        """Why a part may not be asked on a link, or None."""
        tale = self.parts.get(seat)
        if not tale:
            return "there is no such part"
        if tale.ran():
            return "once: no part is asked again that ran, may have run or may yet"
        if not self.waits(seat):
            return "no part is asked that is over, or was refused too often"
        for other, it in self.parts.items():
            if it.caller == tale.caller and other.call != seat.call and self.have_order(it, tale):
                if other.call > seat.call and it.ran():
                    return "in order: no part is asked if a later one ran, may have run or may yet"
                if other.call < seat.call and (self.waits(other) or self.is_elsewhere(it, number, tale)):
                    return "in order: no part is asked before an earlier one"
        return None

    def is_elsewhere(self, one, number, other):
        """Whether a part is on its way, but not for the same slot on this link."""
        is_ahead = isinstance(one.spec.order, int) and one.spec.order == other.spec.order
        return one.last() == "asked" and not (is_ahead and one.steps[-1][1] == number)

    def have_order(self, one, other):
        orders = one.spec.order, other.spec.order
        return "free" not in orders and ("whole" in orders or orders[0] == orders[1])

    def see_wrote(self, answer, number, count):
        self.links[number].written += count

    def see_unwritten(self, answer, number):
        link = self.links[number]
        rest = link.sent[link.written :] if link.standing == "Open" else b""
        want(answer == str(list(rest)), "what is to be written is what was asked, in order")

    def see_hear(self, answer, number, data):
        link = self.links[number]
        link.came, link.before = link.came + data, link.before + [link.written] * len(data)

    def see_take(self, answer, number):
        link = self.links[number]
        reply, what = link.front()
        kind = re.match(r"\w+", answer)[0]
        if kind in ("Nothing", "Broken"):
            want((kind == "Nothing") == (what in ("nothing", "a beginning")), f"{what} is told by `take`")
            want(kind == "Nothing" or what != "a reply", "no link is closed that answers well")
            link.standing = "Open" if kind == "Nothing" else "Broken"
            return
        want(what == "a reply", f"mine: {what} is taken by nobody")
        ticket, link.used, link.told = link.asks[link.told][0], link.used + len(reply), link.told + 1
        if isinstance(ticket, Seat):
            forms = shown(("Kept", ticket)), shown(("Back", ticket, reply))
            want(answer in forms, "mine: reply i is for request i, and is message i")
            self.told(ticket, reply, kind, link.honest)
        else:
            want(answer == shown((*ticket, reply)), "mine: the reply to a request of the session's own is for nobody")

    def told(self, seat, reply, kind, honest):
        tale = self.parts[seat]
        name = re.match(rb"(?:\+|\$\d+\r\n)x(\d+)\.(\d+);", reply)
        want(not (name and honest) or name[1] + b"." + name[2] == b"%d.%d" % seat, "mine: of no other part")
        refused = tale.refused_by(reply)
        tale.steps.append(("refused" if refused else "settled", None))
        tale.reply = reply
        again = refused and (tale.count("refused") <= tale.spec.retries or seat.call in self.over)
        want((kind == "Back") == again, "a refusal is handed out if more are forgiven, or nobody waits")

    def see_end(self, answer, number):
        self.links[number].standing = "Ended"

    def see_lose(self, answer, number):
        link = self.links[number]
        if answer == "None":
            return want(link.told == len(link.asks), "all that waits on a link that ended is lost")
        ticket, start, _ = link.asks[link.told]
        link.told += 1
        begun = start < link.written
        want(answer == f"Some(({name_of(ticket)}, {str(begun).lower()}))", "what is lost is told with its bytes")
        if isinstance(ticket, Seat):
            self.parts[ticket].steps.append(("lost" if begun else "unwritten", None))

    def see_give_up(self, answer, call):
        is_owed = call in self.calls and call not in self.over
        want((answer == "true") == is_owed, "told: a call is given up once at most, and not after its reply")
        self.over.add(call)

    def waits(self, seat):
        tale = self.parts.get(seat)
        open_ = tale and not tale.ran() and not tale.ended and seat.call not in self.over
        return open_ and tale.count("refused") <= tale.spec.retries

    def see_end_part(self, answer, seat, why):
        want((answer == "true") == bool(self.waits(seat)), "a part is ended if it waits")
        if answer == "true":
            self.parts[seat].ended = True

    def see_overtaken(self, answer, caller, slot):
        passed = [it for it in self.parts if self.waits(it) and self.is_passed(it, caller, slot)]
        seat = next((it for it in passed if answer == f"Some(Seat {{ call: {it.call}, part: {it.part} }})"), None)
        want(seat or (answer == "None" and not passed), "overtaken: a later part of its slot is settled")
        if seat:
            self.parts[seat].ended = True

    def is_passed(self, seat, caller, slot):
        mine = [(it.call, tale) for it, tale in self.parts.items() if (tale.caller, tale.spec.order) == (caller, slot)]
        later = any(n > seat.call and tale.last() in ("settled", "lost") for n, tale in mine)
        return later and any(tale is self.parts[seat] for _, tale in mine)

    def see_next(self, answer, caller):
        owed = [n for n, (it, _) in self.calls.items() if it == caller and n not in self.over]
        told = f"Some({owed[0]})" if owed else "None"
        want(answer == told, "in order: the first call that is owed its reply is next")

    def see_finish(self, answer, call):
        caller, count = self.calls.get(call, (None, 0))
        seats = [Seat(call, i) for i in range(count)]
        mine = [n for n, (it, _) in self.calls.items() if it == caller and n <= call and n not in self.over]
        ready = mine == [call] and not any(self.waits(it) for it in seats)
        want((answer != "None") == ready, "told: a call gets its one reply in its turn, once no part waits")
        if ready:
            self.over.add(call)
            phases = re.findall(r"(\w+)(?:\(([^()]*)\))?[,\]]", answer[6:])
            want(len(phases) == count, "told: of each part")
            for seat, (phase, words) in zip(seats, phases):
                self.reported(self.parts[seat], phase, words)

    def reported(self, tale, phase, words):
        fits = {"Answered": "settled", "Lost": "lost", "Asked": "asked", "Refused": "refused"}.get(phase)
        want(fits == tale.last() or (phase == "Unsent" and not tale.ran()), "told: what became of each part")
        if phase in ("Answered", "Refused"):
            want(words == str(list(tale.reply)), "mine: the reply is the one that came for the part")
        if phase == "Unsent":
            want(tale.ended, "told: a part that nobody ended did not wait in vain")


def broken_promise(rows):
    """The promise that the answers of a run break, or None."""
    try:
        Judge(rows)
    except Broken as promise:
        return str(promise)
    return None
