"""How the program is proved: by the gate's own command, on a copy of its crates without their wrong bodies.

That command proves crates side by side, where `rt run` goes one after the other. `gate.py` starts it. With some kits it
keeps each beside the kit by a checksum of all that its proof read, so that the gate takes it from there; with others
`gate.py` keeps it for the next run of `./prove`, and the gate proves all anew.
"""
import collections
import glob
import os
import re
import shutil
import subprocess
import sys
import threading
import time

import gate
import program

KEPT = f"{program.OUT}/kept"
PROVED = re.compile(r"rt: (\w+) (proved|is kept: .*)")


class Progress:
    """How far a proof is."""

    def __init__(self, crates):
        self.crates, self.done, self.began = crates, set(), time.monotonic()

    def __str__(self):
        minutes = int(time.monotonic() - self.began) // 60
        return f"{len(self.done)} of {self.crates} crates, {minutes} minute{'s' * (minutes != 1)}"

    def follow(self, lines):
        """Tells of each crate that is proved, and every five minutes. Answers the last lines."""
        last, ended = collections.deque(maxlen=40), threading.Event()
        threading.Thread(target=self.repeat, args=(ended,), daemon=True).start()
        try:
            for line in lines:
                last.append(line)
                found = PROVED.fullmatch(line.strip())
                if found and found[1] not in self.done:
                    self.done.add(found[1])
                    program.say(f"{self}: {found[1]}{', kept' * (found[2] != 'proved')}")
        finally:
            ended.set()
        return last

    def repeat(self, ended):
        while not ended.wait(300):
            program.say(str(self))


def prove():
    """Proves the program and builds it, unless it is built of these sources. Answers its place, or ends the script."""
    program.end_read_only()
    program.end_without_rt()

    def tell(waits):
        if waits:
            program.say("another run proves in this checkout: waiting for it")

    with program.in_turn(__file__, tell), program.room() as room:
        copy = f"{room}/copy"
        program.copied(copy)
        total = program.sum_of(copy)
        to = program.place("proved", total)
        if not os.path.isfile(to):
            prove_copy(copy, room)
            program.install(f"{copy}/crates/{program.NAME}/out/{program.NAME}", "proved", total)
        return to


def remembers(keeps_by_itself):
    """Whether what is proved now is found by the next proof."""
    return not keeps_by_itself or os.access(f"{os.path.dirname(program.kit())}/rattle-kept", os.W_OK)


def prove_copy(copy, room):
    """Proves and builds the copy, or ends the script."""
    progress, is_proved = Progress(len(program.listed(copy))), False
    program.say(f"proving {progress.crates} crates, those side by side that do not stand on one another")
    keeps_by_itself = gate.keeps_by_itself(program.rt())
    words = [sys.executable, gate.__file__, KEPT]
    how = {"cwd": copy, "stdout": subprocess.PIPE, "stderr": subprocess.STDOUT, "text": True, "errors": "replace"}
    try:
        with program.started(words, room, **how) as child:
            last = progress.follow(child.stdout)
            is_proved = child.wait() == 0
        if not is_proved:
            print("".join(last).replace(copy, program.ROOT), end="", file=sys.stderr)
            program.say("not proved: rt's last lines are above")
            sys.exit(program.NOT_BUILT)
    finally:
        for part in glob.glob(f"{KEPT}/*.new"):
            shutil.rmtree(part, ignore_errors=True)
        if is_proved:
            pass
        elif remembers(keeps_by_itself):
            program.say(f"ended at {progress}; what is proved is kept, and the next proof begins there")
        else:
            program.say(f"ended at {progress}; beside the kit nothing can be kept, so the next proof begins anew")
