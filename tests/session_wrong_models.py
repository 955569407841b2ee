"""Wrong models of the machine of a session: one rule is turned in each. tests/session-runs has to see them."""

from session_model import BadRow, Model
from session_rows import Seat


class ReplyToTheNext(Model):
    """A reply is told to the part after the one that it is for."""

    def first_wait(self, link):
        return min(1, len(link.waits) - 1)


class CancelledReplyToTheNext(Model):
    """A reply to a call that nobody wants is told to the next part that somebody wants."""

    def first_wait(self, link):
        wanted = [i for i, (it, *_) in enumerate(link.waits) if not isinstance(it, Seat) or self.call(it.call).wanted]
        return wanted[0] if wanted else 0


class RefusalOfAnotherSlot(Model):
    """A redirect of any slot counts as a refusal."""

    def is_refusal(self, spec, reply):
        return super().is_refusal(spec, reply) or (spec.may_refuse and reply.startswith((b"-MOVED ", b"-ASK ")))


class RefusalOfAScript(Model):
    """A refusal counts for names that may make up any error."""

    def is_refusal(self, spec, reply):
        return super().is_refusal(spec._replace(may_refuse=True), reply)


class OneRetryTooMany(Model):
    """One refusal more is forgiven."""

    def after_refusal(self, call, left, reply):
        return super().after_refusal(call, left + 1, reply) if left == 0 else super().after_refusal(call, left, reply)


class RefusalsAreNotCounted(Model):
    """Refusals are forgiven without end."""

    def after_refusal(self, call, left, reply):
        return ("Waits", left) if call.wanted and left else super().after_refusal(call, left, reply)


class OvertakenNotSeen(Model):
    """A part is asked though a later one was settled."""

    def is_effective(self, it):
        return it.phase[0] == "Asked"

    def is_passed(self, seat):
        return False


class NoBarrier(Model):
    """A part without a slot has an order with none."""

    def have_order(self, one, other):
        return self.have_slot(one, other)


class LaterCommandOvertakes(Model):
    """A later part is asked on another link than the earlier one."""

    def is_on(self, number, it):
        return it.phase[0] == "Asked"


class EarlierAskedWhileALaterIsOnItsWay(Model):
    """A part that was refused does not wait for a later one."""

    def is_effective(self, it):
        return it.phase[0] in ("Answered", "Lost")


class SlotFreedAtGiveUp(Model):
    """The parts of a call that was given up are out of the order at once."""

    def numbered(self, caller):
        return [(n, call) for n, call in super().numbered(caller) if call.wanted]


class LostToldAsUnsent(Model):
    """A part that was written counts as not run when its link ends."""

    def after_loss(self, call, left, begun):
        return super().after_loss(call, left, False)


class UnsentToldAsLost(Model):
    """A part that was not written counts as run when its link ends."""

    def after_loss(self, call, left, begun):
        return super().after_loss(call, left, True)


class GivenUpAskedAgain(Model):
    """A part of a call that was given up is asked again."""

    def after_refusal(self, call, left, reply):
        return ("Waits", left - 1) if left else ("Refused", reply)

    def may_be_asked(self, call, it):
        return it.phase[0] == "Waits"


class SecondLinkWhileOnItsWay(Model):
    """A part on its way is asked again."""

    def may_be_asked(self, call, it):
        return call.wanted and it.phase[0] in ("Waits", "Asked")


class AskingReplyTakenForThePart(Model):
    """The first reply after an `ASKING` is told to its part."""

    def asks(self, asking, seat):
        found = super().asks(asking, seat)
        return [(seat, b"".join(request for _, request in found))]


class EarlyBytesAccepted(Model):
    """A reply may come before its request is written."""

    def breaks(self, link):
        return None if link.waits else "Stray"


class StrayBytesAccepted(Model):
    """What nobody asked is dropped, and the link goes on."""

    def breaks(self, link):
        if link.waits:
            return super().breaks(link)
        link.heard, link.before = b"", []
        return None


class FinishesOutOfTurn(Model):
    """A call gets its reply before an earlier one of its caller."""

    def is_turn(self, call, caller):
        return True


class AlwaysRefuses(Model):
    """Nothing is ever asked."""

    def may_ask(self, number, seat):
        return False


WRONG_MODELS = Model.__subclasses__()


def differs(rows, model):
    """Whether a model answers a row otherwise."""
    try:
        return any(model.answer(row) != answer for row, answer in rows if row[0] != "#")
    except BadRow:
        return True
