"""Has each call of the system that a daemon makes fail, each time at another place and with each error that its manual page lists, while
nodes register, are looked up and listed, and leave. Then a whole session has to succeed, the names have to be those of the open connections,
the recording has to be a run or reported to have failed, and a KILL has to end the daemon. Status 0 without a KILL is wrong, and so is a call
that is made in no run. The last line says how many cases were OK and how many were BAD. It ends at the first that is BAD.

usage: calls.py EPMD [-half] [CALL..]     CALL is the name of a call, as recv. With -half each error is tried at every second place: the odd
                                          places for the first, third and so on of a call, the even places for the others."""
import concurrent.futures, os, subprocess, sys, tempfile, time
from collections import Counter, namedtuple
from shim import CALLS, FOR_EVER, Faults, say
from daemon import OUT_OF_MEMORY, Daemon, Handed
from session import PATIENCE, Session, Wrong
from system import listener

AT_ONCE = 8  # Daemons that are tried at a time.
PART = 16  # Places that are tried before it is checked whether there are more.
COUNTINGS = 3  # How often the calls are counted. One more or less is made each time.
SEALED = 1.2  # After that many seconds the log was written out once more, unless the machine is busy: then fewer writes are met.
PAUSE = 0.1  # While the reserve of memory is missing no name is registered. The daemon tries once a second to have it again.
ROOM = 4096  # For what is not sent yet, where a reader takes its time.
NAMES = [b"%0250d" % i for i in range(40)]
counts = Counter()  # The cases by whether they were as expected.

# Errors by which no reply is lost: such a call is made again.
AGAIN = {"accept4": CALLS["accept4"].split(), "epoll_wait": ["EINTR"]} | dict.fromkeys(
    ("recv", "send", "write to record", "write to wake"), ["EINTR", "EAGAIN"])

# How a daemon may end by itself if such a call fails as it begins, and while it serves.
POLL = (3, "epmd: polling failed")
LISTEN = (1, "epmd: cannot listen on 127.0.0.1:")
LISTEN_BESIDE = (1, "epmd: cannot listen on [::1]:")
# Lines of a daemon that continues, or that ends since its recording failed.
RECORD = "epmd: recording failed: "
SHORT = "epmd: memory is short, "
PASSING = (RECORD, "epmd: recording again: ", SHORT)
ENDS = {
    "memory": [OUT_OF_MEMORY, POLL, LISTEN], "pthread_create": [OUT_OF_MEMORY],
    **dict.fromkeys(("epoll_create1", "epoll_ctl", "epoll_wait", "eventfd"), [POLL]), **dict.fromkeys(("fcntl", "ioctl"), [POLL, LISTEN]),
    **dict.fromkeys(("socket", "setsockopt", "bind", "listen"), [LISTEN, LISTEN_BESIDE]),
}
# In which way a daemon is tried: from its start on, once nodes are there and a reader takes its time, or with a socket that is passed.
PLAIN, SLOW, HANDED = "", "a slow reader", "a socket that is passed"
NOT_LISTENING = (1, "epmd: descriptor 3 is no listening socket")
# What is called for a socket that is passed. The other calls are those of the plain way.
CALLS_IN = {PLAIN: [*CALLS], SLOW: [*CALLS], HANDED: ["getsockopt", "listen", "fcntl", "ioctl"]}
ENDS_IN = {PLAIN: ENDS, SLOW: {"epoll_wait": [POLL]}, HANDED: {**ENDS, **dict.fromkeys(CALLS_IN[HANDED], [NOT_LISTENING, POLL])}}
MAY_NOT_RECORD = "memory", "open to record", "write to record", "pthread_create", "clock_gettime"

Case = namedtuple("Case", "path call error nth run way")


def is_end(ended, wanted):
    if ended is None:
        return False
    # The cause may have ended the recording before.
    line = " / ".join(line for line in ended[1].split(" / ") if not line.startswith(PASSING))
    return any(ended[0] == status and line.startswith(text) for status, text in wanted)


def lacks_record(ended):
    """Whether it ended since its recording failed, and with no other text."""
    lines = ended[1].split(" / ") if ended else []
    return bool(lines) and ended[0] == 3 and RECORD in ended[1] and all(line.startswith(PASSING) for line in lines)


def is_run(path, file):
    """Whether a recording is a run. One that was never begun has no bytes."""
    if not os.path.exists(file) or not os.path.getsize(file):
        return False
    done = subprocess.run([path, "-check", file], capture_output=True, text=True, timeout=60)
    return done.returncode == 0 and done.stdout.startswith("run of ")


def ended_well(case, daemon, file, faults, is_killed):
    """Waits for the end. How it ended, if that is right: with status 0 after a KILL, else with the status and the text of the call that
    failed. Its recording is a run, however it ended."""
    ended = daemon.ended(PATIENCE)
    if ended and os.path.exists(file) and os.path.getsize(file) and not is_run(case.path, file):
        raise Wrong(f"the recording is no run, and it {daemon.how()}")
    # Once a second a daemon reports the requests that it refused since memory was short.
    is_silent = ended and all(case.call == "memory" and line.startswith(SHORT) for line in ended[1].split(" / ") if line)
    if is_silent and ended[0] == 0:
        if not is_killed:
            raise Wrong("it ended with status 0 without a KILL")
        if not is_run(case.path, file):
            raise Wrong("the recording is no run, and no line says so")
        return "recorded"
    if not faults.refused:
        raise Wrong(f"no call failed, and it {daemon.how()}")
    if lacks_record(ended) and case.call in MAY_NOT_RECORD:
        return "reported to be not recorded"
    if is_end(ended, ENDS_IN[case.way].get(case.call, [])):
        return "ended with a text"
    raise Wrong(daemon.how())


def under_fault(case, session, faults):
    """The session in which the call fails. The number of replies that were cut."""
    if case.way == SLOW:
        session.slow()
        faults.on = 0
    else:
        session.whole()
    if case.call == "write to record":
        time.sleep(SEALED)
    cut, refused = session.cut, faults.refused
    if cut and (not refused or case.error in AGAIN.get(case.call, [])) and session.daemon.runs():
        raise Wrong(f"replies cut: {cut}, and such an error loses no reply")
    return cut


def afterwards(case, session):
    """A session without faults, in which no reply is lost, once memory that was refused is there again."""
    until = time.monotonic() + (PATIENCE if case.call == "memory" else 0)
    while True:
        session.cut = 0
        session.list()
        session.register(b"three")
        session.look_up(b"three")
        session.list()
        session.leave(b"three")
        session.is_gone(b"three")
        if not session.cut or not session.daemon.runs():
            return
        if time.monotonic() > until:
            raise Wrong("afterwards replies are cut")
        time.sleep(PAUSE)


def killed(case, session, faults):
    """All leave and the daemon is killed, again if the first time met the fault."""
    if not session.end() and faults.on and session.daemon.ended(0.5) is None:
        faults.on = 0
        if session.runs_on():
            afterwards(case, session)
            session.end()


def tried(case, faults, daemon, file):
    with Session(daemon) as session:
        if case.way == SLOW:
            for name in (*NAMES, b"two"):
                session.register(name)
            faults.room, faults.on = ROOM, 1
        cut = under_fault(case, session, faults)
        if faults.refused >= case.run:
            faults.on = 0
        if daemon.runs() and not faults.on:
            afterwards(case, session)
        if daemon.runs():
            killed(case, session, faults)
        how = ended_well(case, daemon, file, faults, session.is_killed)
    return f"{'replies cut' if cut else 'all replies'}, {how}"


def started(case, faults, file):
    if case.way != HANDED:
        return Daemon(case.path, "-record", file, env=faults.env, patience=PATIENCE)
    with listener("127.0.0.1") as s:
        return Handed(case.path, [s], "-record", file, env=faults.env)


def tried_again(case):
    """Whether a daemon whose call fails does right; what it did; how often the call failed, and how many calls of each kind there were."""
    with Faults() as faults, tempfile.TemporaryDirectory() as folder:
        file = os.path.join(folder, "recording")
        faults.refuse(case.call, case.nth, case.error, case.run)
        faults.on = case.way != SLOW
        with started(case, faults, file) as daemon:
            try:
                if daemon.runs():
                    how = tried(case, faults, daemon, file)
                else:
                    how = f"did not begin, {ended_well(case, daemon, file, faults, False)}"
                return True, how, faults.refused, faults.counts()
            except Wrong as wrong:
                return False, f"{wrong}", faults.refused, faults.counts()


def end():
    """Ends this script, with the number of cases in its last line."""
    print(f"{counts[True]} passed, {counts[False]} failed", flush=True)
    sys.exit(1 if counts[False] else 0)


def judge(ok, words):
    """Prints the line of a case. The first that is BAD ends this script."""
    counts[ok] += 1
    if not say(ok, words):
        end()


def places(most, number, is_half):
    """The places at which a call fails with the error of this number: all that were counted or every second, and the one behind them."""
    counted = range(1, most + 1)
    return [*(counted[number % 2::2] if is_half and most > 1 else counted), most + 1]


def swept(pool, case, nths):
    """Has the call fail at each of these places. At how many places it was refused."""
    began, seen, refused, bad = time.monotonic(), Counter(), 0, []
    for first in range(0, len(nths), PART):
        cases = [case._replace(nth=nth) for nth in nths[first : first + PART]]
        before = refused
        for each, (ok, how, times, _) in zip(cases, pool.map(tried_again, cases)):
            if times or not ok:
                refused += 1
                seen[how] += ok
                bad += [(each.nth, how)] * (not ok)
        if bad or refused == before:
            break
    for nth, how in bad[:5]:
        print(f"  {case.call} number {nth}, {case.error}: {how}")
    ways = ", ".join(f"{how} {times}" for how, times in seen.items() if times)
    run = f", {case.run} in a row" if case.run > 1 else ""
    what = f"{case.call} {case.error}{run}{case.way and ', ' + case.way}"
    judge(not bad, f"{what}: refused at {refused} places: {ways}: {time.monotonic() - began:.1f} s")
    return refused


def counted(pool, path, way):
    """How many calls of each kind are made at most, and at least, if no call fails."""
    cases = [Case(path, "memory", "ENOMEM", FOR_EVER, 1, way)] * COUNTINGS
    most, least = Counter(), Counter(dict.fromkeys(CALLS, FOR_EVER))
    for ok, how, _, made in pool.map(tried_again, cases):
        judge(ok, f"none refused{way and ', ' + way}: {how}:")
        most |= Counter(made)
        least &= Counter(made)
    print("calls:", ", ".join(f"{call} {times}" for call, times in most.items()))
    return most, least


def all_swept(pool, path, way, calls, is_half):
    """Sweeps these calls in this way. How many of each were made when no call failed."""
    most, least = counted(pool, path, way)
    for call in calls:
        met = 0
        for number, error in enumerate(CALLS[call].split() if most[call] else ()):
            for run in (1, 10) if call == "memory" and way == PLAIN else (1,):
                case = Case(path, call, error, 0, run, way)
                met += swept(pool, case, places(most[call], number, is_half))
        # A call of each run is refused at some place, by one of its errors at least: by a single one it may be missed.
        if least[call]:
            judge(met > 0, f"{call}{way and ', ' + way}: refused {met} times in all:")
    return most


def main(path, *words):
    began, path, made = time.monotonic(), os.path.abspath(path), Counter()
    is_half = "-half" in words
    wanted = [word for word in words if word != "-half"] or [*CALLS]
    never = []
    with concurrent.futures.ProcessPoolExecutor(AT_ONCE) as pool:
        for way in PLAIN, SLOW, HANDED:
            calls = [call for call in CALLS_IN[way] if call in wanted]
            if calls:
                now = all_swept(pool, path, way, calls, is_half)
                never += [f"{call} ({way})" for call in calls if way == HANDED and not now[call]]
                made += now
    never += [call for call in wanted if not made[call]]
    judge(not never, f"calls that are made in no run: {', '.join(never) or 'none'}:")
    print(f"{time.monotonic() - began:.0f} s")
    end()


if __name__ == "__main__":
    main(*sys.argv[1:])
