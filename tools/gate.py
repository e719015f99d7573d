"""The gate's own command, `rt ci`, as `./test` and `./prove` start it.

  python3 tools/gate.py          at the top of the repository: the gate
  python3 tools/gate.py KEPT     in the copy of the crates that `./prove` made

It is the same command but for how crates share processors and memory (`lanes.py`), and for which functions are checked
first where a mutant is tried (`mutants.py`). Where `./prove` starts it, the program of the second compiler, which the
kit keeps for the gate, is built beside the first one's, or is not built where nothing is kept. And with a kit whose
command keeps nothing, and takes each crate's checksum anew for each path that leads down to it, 24,000 of them in the
end, a checksum is taken once, and what is proved of a crate lies in the folder KEPT by its checksum, which is of the
kit and of all files that the proof read, and is taken from there. What fails is not kept, and tests never are. A run
that proves all removes what is kept of other files.
"""
import concurrent.futures
import copy
import os
import shutil
import sys
import tempfile

sys.dont_write_bytecode = True
import lanes
import mutants
import program


def keeps_by_itself(rt):
    """Whether this kit's command, given as a module, keeps what it proved."""
    return hasattr(rt, "Kept")


def keeps_for_the_gate(rt):
    """Whether the gate finds what is proved and built now."""
    if not keeps_by_itself(rt):
        return False
    return os.access(rt.STORE if os.path.isdir(rt.STORE) else os.path.dirname(rt.STORE), os.W_OK)


def build_side_by_side(rt, has_second):
    """Has the kit's two compilers build a program at one time, or only the first of them.

    Nothing is built before the verdict: a build takes it from the folder that the check wrote."""
    compile_by, seconds = rt.Crate.compile_by, {}

    def second(crate, words, to):
        with tempfile.TemporaryFile("w+", errors="replace") as crate.out:
            status = compile_by(crate, "rattle", words, to)
            crate.out.seek(0)
            return status, crate.out.read()

    def both(crate, backend, words, to):
        if backend == "rattle":
            status, said = seconds.pop(crate.name).result() if has_second else (0, "")
            print(said, end="", file=crate.out, flush=True)
            return status
        with concurrent.futures.ThreadPoolExecutor(1) as pool:
            if has_second:
                seconds[crate.name] = pool.submit(second, copy.copy(crate), words, to)
            return compile_by(crate, backend, words, to)

    rt.Crate.compile_by = both


def take_each_sum_once(rt):
    """Has the kit take the checksum of each crate once. It has those of the crates below in it."""
    sum_of, taken = rt.Crate.stamp, {}

    def stamp(crate):
        if crate.folder not in taken:
            taken[crate.folder] = sum_of(crate)
        return taken[crate.folder]

    rt.Crate.stamp = stamp


def place(kept, crate):
    """Where what is proved of the crate is kept, under the handles that it may take."""
    return f"{kept}/{crate.stamp()}-{'+'.join(crate.allowed)}"


def keep(rt, kept):
    """Has the kit's proof of a crate begin with what is kept, and end with keeping it. Answers the places, in time."""
    prove, places = rt.Crate.ci, set()

    def ci(crate, flags, tests):
        if tests:
            return prove(crate, flags, tests)
        at, out = place(kept, crate), f"{crate.folder}/out"
        places.add(at)
        if os.path.isdir(at):
            shutil.copytree(at, out, dirs_exist_ok=True)
            rt.say(f"{crate.name} is kept: an earlier run proved these files")
            return 0
        status = prove(crate, flags, tests)
        if status == 0:
            try:
                shutil.copytree(out, f"{at}.new")
                os.rename(f"{at}.new", at)
            except OSError as error:
                rt.say(f"{crate.name} cannot be kept: {error}")
        return status

    rt.Crate.ci = ci
    return places


def share(rt, is_gate):
    """Has the kit share processors and memory as this repository's crates need them, if it is a kit that is known."""
    if lanes.is_known(rt):
        lanes.try_again_alone(rt)
        # What `./prove` proves is mostly one chain, in which a second job helps on two processors, too.
        if not is_gate or not lanes.run_one_each(rt):
            lanes.share(rt)
        if mutants.is_known(rt):
            mutants.try_parts_first(rt)


def main(kept=None):
    rt = program.rt()
    share(rt, is_gate=not kept)
    if kept:
        build_side_by_side(rt, keeps_for_the_gate(rt))
    if not kept or keeps_by_itself(rt):
        return rt.main(["ci"])
    os.makedirs(kept, exist_ok=True)
    take_each_sum_once(rt)
    places = keep(rt, kept)
    status = rt.main(["ci"])
    if status == 0:
        for name in os.listdir(kept):
            if f"{kept}/{name}" not in places:
                shutil.rmtree(f"{kept}/{name}")
    return status


if __name__ == "__main__":
    sys.exit(main(*sys.argv[1:]))
