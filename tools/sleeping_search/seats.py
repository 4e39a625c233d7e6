"""The engine `seats` (crates/seat_board/src/worker.rt, rings.rt).

Turns are had one by one in the order of tickets, and workers sleep under the lock of the bell. So between a turn and a
sleep any other worker may have turns.
"""

import workers as w


class Seats(w.Engine):
    NAME = "seats"
    FAULTS = {
        "old_bell": "only a ring that wakes one is counted, and a worker with nothing to do sleeps though it is the last awake",
        "unheard": "a worker that falls asleep beside another does not raise the count",
        "uncounted": "where nobody sleeps the count is not raised, though there may be more",
        "untold": "a worker for which memory was wanting goes home and wakes nobody",
    }

    def counted(self, workers):
        return tuple(one._replace(heard="raised") if one.heard == "same" else one for one in workers)

    def ring(self, state, index, worker, attendance, then, more):
        """`Rings::ring`: the count is raised where there may be more, and one is rung for."""
        workers = state.workers[:index] + (worker,) + state.workers[index + 1 :]
        change = {"attendance": attendance, "workers": workers}
        after = worker._replace(at=then)
        reason = more or attendance.left
        rings = reason and w.may_ring(attendance, workers)
        if reason and (rings or self.fault not in ("old_bell", "uncounted")):
            change["workers"] = self.counted(workers)
        if rings:
            change["attendance"] = attendance._replace(rung=True, left=False)
            after = after._replace(at="ring for one", then=then)
        return after, change

    def steps_at_work(self, state, index, worker):
        board, attendance, workers = state.board, state.attendance, state.workers
        if worker.at == "outside":
            yield "comes", worker._replace(at="beside"), {}
        elif worker.at == "woken":
            yield "wakes up", worker._replace(at=worker.then, then=""), {"attendance": attendance._replace(rung=False)}
        elif worker.at == "draw":
            before = sum(other.at == "turn" for other in workers)
            yield "draws a ticket", worker._replace(at="turn", place=before), {}
        elif worker.at == "turn":
            if worker.place == 0:
                yield from self.turn(state, worker)
        elif worker.at == "take":
            taken = worker._replace(busy=True, more=worker.more)
            if w.is_eager(attendance):
                yield ("has a job",) + self.ring(state, index, taken, attendance, "job", worker.more)
            else:
                yield "has a job", taken._replace(at="job"), {}
        elif worker.at == "job":
            yield "job has ended", worker._replace(at="end", result="short", more=False), {}
            longer = worker._replace(lasting=True, more=False)
            lasts = attendance._replace(short=0)
            yield ("job lasts",) + self.ring(state, index, longer, lasts, "long job", worker.more)
            yield from self.wanting(state)
        elif worker.at == "long job":
            yield "job has ended", worker._replace(at="end", result="long"), {}
            yield from self.wanting(state)
        elif worker.at == "end":
            free = worker._replace(at="draw", busy=False, lasting=False)
            ended = w.with_job_ended(attendance, worker.result)
            aside = w.is_crowded(ended, workers[:index] + (free,) + workers[index + 1 :])
            yield "tells that its job has ended", free._replace(aside=aside), {"attendance": ended}
        elif worker.at == "beside":
            yield from self.sleeps_beside(state, worker)
        elif worker.at == "rest":
            if attendance.failed:
                yield "hears that another has failed", w.Worker(at="home", failing=True), {}
            elif worker.heard:
                yield "has nothing to do again", worker._replace(at="wait"), {}
            else:
                yield "has nothing to do, reads the count", worker._replace(at="draw", heard="same"), {}
        elif worker.at == "wait":
            last = not w.has_other(workers) and self.fault != "old_bell"
            after = worker._replace(at="draw", heard="")
            if worker.heard == "same" and not attendance.failed and not last:
                yield "falls asleep", after._replace(at="asleep", then="draw"), {}
            else:
                yield "looks again", after, {}

    def sleeps_beside(self, state, worker):
        """`sleep_beside`, as a worker comes, and after a turn that met."""
        attendance, workers = state.attendance, state.workers
        after = worker._replace(at="draw", aside=False)
        if worker.aside:
            sleeps = w.is_crowded(attendance, workers)
        else:
            sleeps = w.is_beside_another(attendance, workers)
        if not sleeps:
            yield "goes on", after, {}
            return
        heard = workers if self.fault in ("old_bell", "unheard") else self.counted(workers)
        change = {"attendance": attendance._replace(left=True), "workers": heard}
        yield "falls asleep beside another", after._replace(at="asleep", then="draw"), change

    def turn(self, state, worker):
        """A turn of the board, after a result that the worker hands in. It does no more if it leaves the turn to another."""
        board = state.board
        queue = tuple(one._replace(place=one.place - 1) if one.at == "turn" else one for one in state.workers)
        free = worker._replace(place=-1, result="")
        handed_in = w.with_result(board) if worker.result else (board,)
        name = "hands in, " if worker.result else ""
        for before in handed_in:
            aside = worker.result and worker.aside
            for turn, after in (("met", before),) if aside else w.turns(before):
                change = {"board": after, "workers": queue}
                if turn == "job":
                    next_worker = free._replace(at="take", heard="", aside=False, more=after.ready > 0)
                elif turn == "met":
                    next_worker = free._replace(at="beside", heard="")
                elif turn == "rest":
                    next_worker = free._replace(at="rest", aside=False)
                else:
                    next_worker = w.Worker(at="home")
                yield "%sturn: %s" % (name, turn), next_worker, change
        if state.refusals:
            # A refused result is lost: its job may be taken again.
            lost = board._replace(out=board.out - 1, ready=board.ready + 1, looked=False) if worker.result else board
            home = w.Worker(at="home", failing=True)
            yield "turn: memory is wanting", home, {"board": lost, "workers": queue, "refusals": state.refusals - 1}

    def wanting(self, state):
        if state.refusals:
            yield "memory is wanting", w.Worker(at="home", failing=True), {"refusals": state.refusals - 1}
