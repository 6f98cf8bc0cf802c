"""Refuses each request for memory that is made between two marks, one in each run, from the first on until a run meets no refusal: in the
tests of `refusals`, or in each file of stories but the large files. Each passes with a refusal and without one. The first that is BAD ends
this script.

usage: rows.py TESTS             the program of the tests, as rt test leaves it
       rows.py STORIES FOLDER    the program of the stories, as rt run leaves it, and its folder"""
import concurrent.futures, os, subprocess, sys
from shim import Faults, say

AT_ONCE = 8
PART = "refusals::"
BYTES = "bytes.story"  # These files have names for bytes and no stories, and come first.
LARGE = "large"


def tests_in(program):
    """The tests whose memory is refused, each with its command and folder."""
    done = subprocess.run([program, "--list"], capture_output=True, text=True, timeout=60)
    names = [line.removesuffix(": test") for line in done.stdout.splitlines() if PART in line]
    return {name: ([program, name], ".") for name in names}


def stories_in(program, folder):
    """The files of stories, each with its command and folder."""
    with open(f"{folder}/args") as file:
        files = file.read().split()
    first = [name for name in files if name.endswith(BYTES)]
    rest = [name for name in files if name not in first and not name.startswith(LARGE)]
    return {name: ([program, *first, name], f"{folder}/data") for name in rest}


def run(words, folder, nth):
    """Whether it passes with the nth request refused, how many were refused and made, and the end of its output."""
    with Faults() as faults:
        faults.refuse("memory", nth)
        done = subprocess.run(words, cwd=folder, capture_output=True, text=True, timeout=60, env={**os.environ, **faults.env})
        made = faults.counts()["memory"]
        held = done.returncode == 0 and "ok" in done.stdout
        return held, faults.refused, made, (done.stdout + done.stderr).strip()[-200:]


def swept(pool, name, words, folder):
    """Refuses the requests of one of them, one after another. Whether it passed each time."""
    ok, _, made, wrote = run(words, folder, 0)
    if not ok or (not made and PART in name):
        return say(False, f"{name}: {made} requests and no refusal: {wrote}:")
    nths = range(1, made + 8)  # After a refusal there may be more requests.
    results = list(pool.map(run, *zip(*((words, folder, nth) for nth in nths))))
    bad = [(nth, wrote) for nth, (held, _, _, wrote) in zip(nths, results) if not held]
    refused = sum(times for _, times, _, _ in results)
    for nth, wrote in bad[:5]:
        print(f"  {name}, request {nth} refused: {wrote}")
    is_all = results[-1][1] == 0 and refused >= made
    return say(not bad and is_all, f"{name}: each of {refused} requests refused:")


def main(program, *folders):
    program = os.path.abspath(program)
    found = stories_in(program, *folders) if folders else tests_in(program)
    with concurrent.futures.ProcessPoolExecutor(AT_ONCE) as pool:
        ok = say(len(found) > 0, f"{len(found)} of them whose memory is refused:") and all(
            swept(pool, name, *how) for name, how in found.items())
    sys.exit(not ok)


if __name__ == "__main__":
    main(*sys.argv[1:])
