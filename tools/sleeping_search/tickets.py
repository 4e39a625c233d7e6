"""The ticket lock (crates/ticket_lock/src/lock.rt).

Passes have turns in the order of their tickets, and sleep on words, each on that of its ticket. A pass looks once
before it is counted among those that sleep, where the lock looks 128 times.
"""

from typing import NamedTuple

BEDS = 2


class Pass(NamedTuple):
    """Where a pass stands, which is the name of its next step, and what it carries."""

    at: str = "draw"
    turns: int = 0  # how many it will have yet
    ticket: int = -1
    found: int = -1  # the word on which it is to sleep, as it was


class State(NamedTuple):
    drawn: int
    now: int
    asleep: int
    beds: tuple
    passes: tuple
    spurious: int


class Tickets:
    NAME = "tickets"
    FAULTS = {
        "ended": "a pass wakes the ticket that has ended",
        "two": "a pass wakes only where two sleep",
        "look_first": "a pass looks whose turn it is before it is counted, and not again",
    }
    RULES = {}

    def __init__(self, passes, turns, spurious, fault=None):
        self.size = (passes, turns, spurious)
        self.fault = fault

    def start(self):
        passes, turns, spurious = self.size
        return State(0, 0, 0, (0,) * BEDS, (Pass(turns=turns),) * passes, spurious)

    def is_done(self, state):
        return all(one.at == "gone" for one in state.passes)

    def steps(self, state):
        for index, one in enumerate(state.passes):
            for name, after, change in self.steps_of(state, one):
                passes = change.pop("passes", state.passes)
                passes = passes[:index] + (after,) + passes[index + 1 :]
                yield name, name == "wakes for no reason", state._replace(passes=tuple(sorted(passes)), **change)

    def steps_of(self, state, one):
        bed = one.ticket % BEDS
        if one.at == "draw":
            yield "draws a ticket", one._replace(at="look", ticket=state.drawn), {"drawn": state.drawn + 1}
        elif one.at == "look":
            if state.now == one.ticket:
                yield "has its turn", one._replace(at="turn"), {}
            else:
                yield "waits", one._replace(at="count in"), {}
        elif one.at == "count in":
            yield "is counted", one._replace(at="read the word"), {"asleep": state.asleep + 1}
        elif one.at == "read the word":
            next_step = "sleep" if self.fault == "look_first" else "look once more"
            yield "reads its word", one._replace(at=next_step, found=state.beds[bed]), {}
        elif one.at == "look once more":
            next_step = "count out" if state.now == one.ticket else "sleep"
            yield "looks once more", one._replace(at=next_step), {}
        elif one.at == "sleep":
            if state.beds[bed] == one.found:
                yield "falls asleep", one._replace(at="asleep"), {}
            else:
                yield "finds its word changed", one._replace(at="count out"), {}
        elif one.at == "asleep":
            if state.spurious:
                yield "wakes for no reason", one._replace(at="count out"), {"spurious": state.spurious - 1}
        elif one.at == "count out":
            yield "is counted no more", one._replace(at="look", found=-1), {"asleep": state.asleep - 1}
        elif one.at == "turn":
            # From here on `ticket` is the one to be woken.
            coming = one.ticket if self.fault == "ended" else one.ticket + 1
            yield "ends its turn", one._replace(at="read the count", ticket=coming), {"now": state.now + 1}
        elif one.at == "read the count":
            least = 2 if self.fault == "two" else 1
            next_step = "change the word" if state.asleep >= least else "rest"
            yield "reads how many sleep", one._replace(at=next_step), {}
        elif one.at == "change the word":
            beds = tuple(word + (at == bed) for at, word in enumerate(state.beds))
            yield "changes the word", one._replace(at="wake"), {"beds": beds}
        elif one.at == "wake":
            woken = tuple(
                other._replace(at="count out") if other.at == "asleep" and other.ticket % BEDS == bed else other
                for other in state.passes
            )
            yield "wakes who sleeps on it", one._replace(at="rest"), {"passes": woken}
        elif one.at == "rest":
            left = one.turns - 1
            yield "goes on", Pass(at="draw" if left else "gone", turns=left), {}

    def told(self, state):
        return "drawn %d, now %d, asleep %d | %s" % (
            state.drawn,
            state.now,
            state.asleep,
            "; ".join("%s %d" % (one.at, one.ticket) if one.ticket >= 0 else one.at for one in state.passes),
        )
