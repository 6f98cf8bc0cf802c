"""A watch over a daemon under load: how many look-ups it answers, and for how long it answers none."""
import contextlib, multiprocessing, time
from concurrent.futures import ThreadPoolExecutor

from daemon import look_up
from system import PATIENCE
from wire import ask, found, port_please


def look(port, name, pipe, done):
    looks = []
    while not looks or not done.is_set():
        start = time.monotonic()
        reply = ask(port, port_please(name))
        looks.append((start, time.monotonic(), reply == found(name)))
    pipe.send(looks)


@contextlib.contextmanager
def looking_up(port, name):
    """Looks a name up without pause in a process of its own meanwhile. The list then has the start and the end of each look-up, and whether
    the name was found."""
    (reader, writer), done, looks = multiprocessing.Pipe(False), multiprocessing.Event(), []
    client = multiprocessing.Process(target=look, args=(port, name, writer, done))
    client.start()
    try:
        yield looks
    finally:
        done.set()
        assert reader.poll(PATIENCE), "no look-up was answered"
        looks += reader.recv()
        client.join()


def look_ups(port, names, seconds=1.0):
    """How many look-ups of these names, ten at a time, are answered in that many seconds, and how many of them find the name."""
    until = time.monotonic() + seconds
    with ThreadPoolExecutor(10) as pool:
        answers = list(pool.map(lambda name: look_up(port, name, max(0.01, until - time.monotonic())), names))
    return sum(answer is True or answer is False for answer in answers), sum(answer is True for answer in answers)


def watch(daemon, names, seconds, until_well=False):
    """Asks for the names once a second: how many were found each time, after how many seconds all were answered (or None), and the longest
    time without an answer while the daemon ran."""
    start = last = now = time.monotonic()
    seen, silence, well = [], 0.0, None
    while daemon.runs() and now < start + seconds and not (until_well and well):
        begins = time.monotonic()
        answered, count = look_ups(daemon.port, names)
        now = time.monotonic()
        seen.append(count)
        last = now if answered else last
        silence, well = max(silence, now - last), now - start if answered == len(names) else well
        time.sleep(max(0.0, begins + 1 - now))
    return seen, well, silence
