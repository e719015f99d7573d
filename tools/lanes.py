"""How the gate's own command shares processors and memory among the crates that `./test` and `./prove` prove.

The kit gives a proof the processors that are idle when it begins, mostly one, and leaves it at that: where one crate
stands between those that are proved and all others, the other processors wait. And it plans with more than twice the
memory that these crates take, so that fewer are proved side by side than there is room for. What is proved is the same.
"""
import contextlib
import inspect
import os
import signal
import threading

# How many jobs, copies of the prover, a proof gets at most: more seldom help.
MOST = 8
# How many bytes are free for a job: 100 to 150 million were seen.
JOB = 500_000_000
# The part of the planned memory that these crates take: 0.2 to 0.44 were seen, and 0.56 of a small one.
TAKEN = 0.5
# The fewest processors at which the gate, which has more to do side by side than `./prove`, gains by several jobs.
MANY = 4
# The memory that each of two or three proofs side by side has to find free, to begin without a plan: the two that take
# most take 6.7 and 4.9 GB.
ROOM = 6_000_000_000


def is_known(rt):
    """Whether this kit's command, given as a module, is one that this was written for."""
    return all(callable(getattr(rt, it, None)) for it in ("in_lanes", "need", "free", "processors", "checked"))


def are_known(tasks):
    """Whether each is what it waits for, its work in lines, its memory, and a call of what was given and its jobs."""
    return all(len(it) == 4 and len(inspect.signature(it[3]).parameters) in (2, 3) for it in tasks.values())


def behind(tasks):
    """The lines of each task with those of the longest chain of tasks that wait for it. A task comes after those that
    it waits for itself."""
    lines = dict.fromkeys(tasks, 0)
    for key in reversed([*tasks]):
        waits_for, own, *_ = tasks[key]
        lines[key] += own
        for it in waits_for:
            lines[it] = max(lines[it], lines[key])
    return lines


def share(rt):
    """Has each proof take more jobs than the kit gives it, and the kit plan with less memory.

    The proof with the longest chain behind it gets a job for each processor, and the others share half as many again as
    there are: the system gives more jobs than processors turns."""
    run, need = rt.in_lanes, rt.need

    def in_lanes(tasks):
        if not are_known(tasks):
            return run(tasks)
        lines = behind(tasks)

        def most(key, given):
            can_run = [it for it in tasks if it not in given and all(below in given for below in tasks[it][0])]
            is_first = lines[key] == max(lines[it] for it in can_run)
            proofs = sum(it[1] == "proof" for it in can_run) or 1
            jobs = rt.processors() if is_first else 3 * rt.processors() // (2 * proofs)
            return min(MOST, jobs, int(rt.free() / 2 // JOB))

        def shared(key, call):
            return lambda given, jobs: call(given, max(jobs, most(key, given)))

        return run({key: (*task[:3], shared(key, task[3])) for key, task in tasks.items()})

    rt.in_lanes = in_lanes
    rt.need = lambda crate: TAKEN * need(crate)


def run_one_each(rt):
    """Has the kit run a proof of one job on each of few processors, with no plan of the memory, where there is room for
    that. Answers whether it does: also where RT_JOBS says how many run."""
    few = rt.processors()
    if few < MANY and rt.free() >= few * ROOM:
        os.environ.setdefault("RT_JOBS", str(few))
    return "RT_JOBS" in os.environ


class Turns:
    """Lets tasks run beside others, and one of them by itself."""

    def __init__(self):
        self.changed, self.running, self.waiting = threading.Condition(), 0, 0

    @contextlib.contextmanager
    def beside(self):
        """Begins when no other is by itself, or waits to be."""
        with self.changed:
            self.changed.wait_for(lambda: not self.waiting)
            self.running += 1
        try:
            yield
        finally:
            with self.changed:
                self.running -= 1
                self.changed.notify_all()

    @contextlib.contextmanager
    def alone(self):
        """Within `beside`: waits until all others have ended or wait for the same, and has them wait."""
        with self.changed:
            self.running -= 1
            self.waiting += 1
            self.changed.notify_all()
            self.changed.wait_for(lambda: not self.running)
            self.running += 1
        try:
            yield
        finally:
            with self.changed:
                self.waiting -= 1
                self.changed.notify_all()


def try_again_alone(rt):
    """Has the kit try what was killed, most likely for memory, a second time by one job, with nothing beside it."""
    run = rt.in_lanes

    def in_lanes(tasks):
        if not are_known(tasks):
            return run(tasks)
        prove, check, turns, killed = rt.Crate.ci, rt.checked, Turns(), set()

        def ci(crate, flags, tests):
            # The kit proves what was killed once more by one job, so it comes here again.
            with turns.alone() if (crate.name, tests) in killed else contextlib.nullcontext():
                status = prove(crate, flags, tests)
            if status == -signal.SIGKILL:
                killed.add((crate.name, tests))
            return status

        def checked(crate, texts, flags, kept):
            ran = check(crate, texts, flags, kept)
            if ran.returncode != -signal.SIGKILL:
                return ran
            with turns.alone():
                return check(crate, texts, ["--jobs", "1"], kept)

        def beside(call):
            def ran(given, jobs):
                with turns.beside():
                    return call(given, jobs)

            return ran

        rt.Crate.ci, rt.checked = ci, checked
        # With several jobs the kit's library would try again at once, beside all others.
        rt.rtlib.with_one_job = lambda words, status, out: None
        return run({key: (*task[:3], beside(task[3])) for key, task in tasks.items()})

    rt.in_lanes = in_lanes
