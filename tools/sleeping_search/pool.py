"""The engine `pool` (crates/worker_pool/src/worker.rt): turn and sleep are under one lock."""

import workers as w


class Pool(w.Engine):
    NAME = "pool"
    FAULTS = {
        "beside_nobody": "a worker that hands in a short job sleeps without asking whether another is awake",
        "untold": "a worker for which memory was wanting goes home and wakes nobody",
    }

    def steps_at_work(self, state, index, worker):
        board, attendance = state.board, state.attendance
        if worker.at == "outside":
            yield "comes", worker._replace(at="first turn"), {}
        elif worker.at in ("first turn", "look"):
            yield from self.turn(worker.at, state, index, worker, board, attendance)
        elif worker.at == "woken":
            # It has the lock again, is counted as awake, and has its turn.
            up = worker._replace(at=worker.then, then="")
            yield from self.turn("wakes up", state, index, up, board, attendance._replace(rung=False))
        elif worker.at == "turn after a meeting":
            if w.is_beside_another(attendance, state.workers):
                yield "falls asleep beside another", worker._replace(at="asleep", then="first turn"), {}
            else:
                yield from self.turn("goes on", state, index, worker._replace(at="first turn"), board, attendance)
        elif worker.at == "job":
            yield "job has ended", worker._replace(at="hand in", result="short"), {}
            lasts = attendance._replace(short=0)
            longer = worker._replace(lasting=True)
            if board.ready and w.may_ring(attendance, state.workers):
                ringing = longer._replace(at="ring for one", then="long job")
                yield "job lasts, rings", ringing, {"attendance": lasts._replace(rung=True)}
            else:
                yield "job lasts", longer._replace(at="long job"), {"attendance": lasts}
            yield from self.wanting(state, worker)
        elif worker.at == "long job":
            yield "job has ended", worker._replace(at="hand in", result="long"), {}
            yield from self.wanting(state, worker)
        elif worker.at == "hand in":
            free = worker._replace(at="first turn", result="", busy=False, lasting=False)
            workers = state.workers[:index] + (free,) + state.workers[index + 1 :]
            ended = w.with_job_ended(attendance, worker.result)
            blind = self.fault == "beside_nobody" and ended.short >= w.FEW_SHORT
            for after in w.with_result(board):
                if blind or w.is_crowded(ended, workers):
                    sleeper = free._replace(at="asleep", then="first turn")
                    yield "hands in, falls asleep beside another", sleeper, {"board": after, "attendance": ended}
                else:
                    yield from self.turn("hands in", state._replace(workers=workers), index, free, after, ended)

    def wanting(self, state, worker):
        if state.refusals:
            home = w.Worker(at="home", failing=True)
            yield "memory is wanting", home, {"refusals": state.refusals - 1}

    def turn(self, name, state, index, worker, board, attendance):
        """A turn of a worker that has the lock, and what it does before it lets the lock go."""
        if attendance.failed:
            home = w.Worker(at="home", failing=True)
            yield name + ", another has failed", home, {"board": board, "attendance": attendance}
            return
        workers = state.workers[:index] + (worker,) + state.workers[index + 1 :]
        for turn, after in w.turns(board):
            change = {"board": after, "attendance": attendance}
            if turn == "job":
                next_worker = worker._replace(at="job", busy=True)
                if w.is_eager(attendance) and after.ready and w.may_ring(attendance, workers):
                    change["attendance"] = attendance._replace(rung=True)
                    next_worker = next_worker._replace(at="ring for one", then="job")
            elif turn == "met":
                next_worker = worker._replace(at="turn after a meeting")
            elif turn == "over":
                next_worker = w.Worker(at="home")
            elif worker.at == "look" and w.has_other(workers):
                next_worker = worker._replace(at="asleep", then="look")
            else:
                next_worker = worker._replace(at="look")
            yield "%s, turn: %s" % (name, turn), next_worker, change
        if state.refusals:
            home = w.Worker(at="home", failing=True)
            change = {"board": board, "attendance": attendance, "refusals": state.refusals - 1}
            yield name + ", memory is wanting", home, change
