"""What both engines with threads have: a board of jobs, and workers that come, work, sleep, wake others and go home."""

from typing import NamedTuple

# The haste of `Attendance`, with 1 for 8 and 2 for 64.
FEW_SHORT = 1
BETWEEN_RINGS = 2


class Board(NamedTuple):
    """What there is to do. A result, and a meeting, may make more while the budget lasts."""

    ready: int  # jobs that may be taken
    meetings: int  # turns that wait and are no job
    out: int  # jobs that workers have
    budget: int  # how much more may be made
    looked: bool  # whether a turn found nothing to do since the last change


class Attendance(NamedTuple):
    """What lies under the lock and is not counted from where the workers stand."""

    rung: bool = False  # one was rung for, and has not woken up yet
    left: bool = False  # seats: one left to another what there is to do, since the last ring
    short: int = 0  # how many short jobs ended since one lasted: 0, then 1 and 2 by turns
    failed: bool = False


class Worker(NamedTuple):
    """Where a worker stands, which is the name of its next step, and what it carries."""

    at: str = "outside"
    then: str = ""  # where it goes on after a ring or a sleep
    result: str = ""  # of its job that has ended: "short" or "long"
    busy: bool = False
    lasting: bool = False
    place: int = -1  # seats: how many tickets are before its own
    heard: str = ""  # seats: the count that it has read is the "same" still, or was "raised"
    aside: bool = False  # seats: it leaves its turn to another
    more: bool = False  # seats: its turn has said that there may be more
    failing: bool = False  # it goes home because memory was wanting


class State(NamedTuple):
    board: Board
    attendance: Attendance
    workers: tuple
    spurious: int  # how many more may wake for no reason
    refusals: int  # how often more memory may be wanting


NOT_HERE = ("outside", "ring for all", "gone")
ASLEEP = ("asleep", "woken")


def here(workers):
    return sum(worker.at not in NOT_HERE for worker in workers)


def asleep(workers):
    return sum(worker.at in ASLEEP for worker in workers)


def awake(workers):
    return here(workers) - asleep(workers)


def may_ring(attendance, workers):
    return asleep(workers) > 0 and not attendance.rung


def is_eager(attendance):
    return attendance.short < FEW_SHORT or attendance.short % BETWEEN_RINGS == 0


def is_crowded(attendance, workers):
    lasting = sum(worker.lasting for worker in workers)
    return attendance.short >= FEW_SHORT and not attendance.failed and awake(workers) - lasting > 1


def is_beside_another(attendance, workers):
    busy = sum(worker.busy for worker in workers)
    return not attendance.failed and awake(workers) - busy > 1


def has_other(workers):
    return awake(workers) > 1


def with_job_ended(attendance, result):
    if result == "long":
        return attendance
    return attendance._replace(short=attendance.short + 1 if attendance.short < 2 else 1)


def changed(board):
    """What the board may be after a change, which may make up to two jobs or a meeting."""
    for jobs, meetings in ((0, 0), (1, 0), (2, 0), (0, 1)):
        if jobs + meetings <= board.budget:
            yield board._replace(
                ready=board.ready + jobs,
                meetings=board.meetings + meetings,
                budget=board.budget - jobs - meetings,
                looked=False,
            )


def with_result(board):
    """What the board may be once a result was handed in."""
    return changed(board._replace(out=board.out - 1))


def turns(board):
    """What a turn may answer, and the board behind it."""
    if board.ready:
        yield "job", board._replace(ready=board.ready - 1, out=board.out + 1)
    if board.meetings:
        for after in changed(board._replace(meetings=board.meetings - 1)):
            yield "met", after
    if not board.ready and not board.meetings:
        yield ("rest" if board.out else "over"), board._replace(looked=True)


class Engine:
    """The steps that both engines have. A step is one critical section, one wake, or one choice."""

    def __init__(self, workers, budget, refusals, spurious, fault=None):
        self.size = (workers, budget, refusals, spurious)
        self.fault = fault

    def start(self):
        workers, budget, refusals, spurious = self.size
        board = Board(ready=1, meetings=0, out=0, budget=budget, looked=False)
        return State(board, Attendance(), (Worker(),) * workers, spurious, refusals)

    def is_done(self, state):
        return all(worker.at == "gone" for worker in state.workers)

    def steps(self, state):
        for index, worker in enumerate(state.workers):
            for name, worker, change in self.steps_of(state, index, worker):
                others = change.pop("workers", state.workers)
                workers = others[:index] + (worker,) + others[index + 1 :]
                # which worker stands where does not matter
                after = state._replace(workers=tuple(sorted(workers)), **change)
                yield name, name == "wakes for no reason", after

    def steps_of(self, state, index, worker):
        """The steps of one worker: name, the worker behind it, and what else changes."""
        if worker.at == "gone":
            return
        if worker.at == "asleep":
            if state.spurious:
                yield "wakes for no reason", worker._replace(at="woken"), {"spurious": state.spurious - 1}
        elif worker.at == "ring for one":
            yield from self.rings_for_one(state, worker)
        elif worker.at == "ring for all":
            woken = tuple(other._replace(at="woken") if other.at == "asleep" else other for other in state.workers)
            yield "wakes all, is gone", Worker(at="gone"), {"workers": woken}
        elif worker.at == "home":
            yield from self.goes_home(state, worker)
        else:
            yield from self.steps_at_work(state, index, worker)

    def rings_for_one(self, state, worker):
        after = worker._replace(at=worker.then, then="")
        sleepers = {other: at for at, other in enumerate(state.workers) if other.at == "asleep"}
        if not sleepers:
            yield "wakes nobody", after, {}
        for other, at in sleepers.items():
            woken = other._replace(at="woken")
            yield "wakes one", after, {"workers": state.workers[:at] + (woken,) + state.workers[at + 1 :]}

    def goes_home(self, state, worker):
        attendance = state.attendance._replace(failed=state.attendance.failed or worker.failing)
        tells = not (self.fault == "untold" and worker.failing)
        after = Worker(at="ring for all" if tells else "gone")
        yield "goes home", after, {"attendance": attendance, "workers": self.counted(state.workers)}

    def counted(self, workers):
        """The workers, once the bell's count was raised."""
        return workers

    # What has to hold of each state.

    def one_is_awake(self, state):
        """Not all that are here sleep, unless one that went home is about to wake all."""
        at_home = [worker.at for worker in state.workers if worker.at not in NOT_HERE]
        rings = any(worker.at == "ring for all" for worker in state.workers)
        return not at_home or rings or any(at != "asleep" for at in at_home)

    def no_job_waits_for_a_long_one(self, state):
        """No job may be taken while one sleeps, nobody is on the way, and all that are awake have jobs that last."""
        at = [worker.at for worker in state.workers if worker.at not in NOT_HERE]
        up = [one for one in at if one != "asleep"]
        waits = state.board.ready and up and len(up) < len(at) and all(one == "long job" for one in up)
        return not waits or any(worker.at in ("outside", "ring for all") for worker in state.workers)

    RULES = {"one is awake": one_is_awake, "no job waits for a long one": no_job_waits_for_a_long_one}

    def told(self, state):
        board, attendance = state.board, state.attendance
        return "ready %d, meetings %d, out %d, short %d%s%s%s | %s" % (
            board.ready,
            board.meetings,
            board.out,
            attendance.short,
            ", rung" if attendance.rung else "",
            ", left" if attendance.left else "",
            ", failed" if attendance.failed else "",
            "; ".join(worker.at + (" (count %s)" % worker.heard if worker.heard else "") for worker in state.workers),
        )
