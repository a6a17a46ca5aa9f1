"""`record`: relays and a follower, side by side, until a signal. The follower is a process of its own, so that what etcd says, which may
be much at once, holds up no client. It is there first: no client is accepted before the watch on etcd stands.

SIGINT and SIGTERM end a record in order: the relays hang up, the follower waits for what etcd did until then, and both files get
their last lines. The status is 0 if nothing is missing, and 1 otherwise.
"""
import multiprocessing
import os
import signal
import sys
import threading
import time

from follow import Follower
from records import Log
from relay import Relays

LATE = 5_000_000  # microseconds until it is said that etcd is not followed yet


def follow(endpoints, path, clock, is_begun, is_over):
    """The process that follows etcd."""
    for it in (signal.SIGINT, signal.SIGTERM):
        signal.signal(it, signal.SIG_IGN)
    follower = Follower(endpoints, Log(path, clock), threading.Lock())
    threading.Thread(target=follower.follow, daemon=True).start()
    follower.is_begun.wait()
    is_begun.set()
    is_over.wait()
    missing = follower.finish()
    if missing:
        print(f"audit: {missing}", file=sys.stderr)
    sys.stderr.flush()
    os._exit(1 if missing else 0)


def record(endpoints, pairs, folder, seconds):
    os.makedirs(folder)
    since = time.monotonic_ns()

    def clock():
        return (time.monotonic_ns() - since) // 1000

    with open(os.path.join(folder, "about"), "w", encoding="utf-8") as it:
        it.write(f"began {time.time():.3f}, {time.strftime('%Y-%m-%d %H:%M:%S %z')}\netcd {','.join(endpoints)}\n")
        for listen, proxy in pairs:
            it.write(f"proxy {listen[0]}:{listen[1]} {proxy[0]}:{proxy[1]}\n")
    stopped = []
    for it in (signal.SIGINT, signal.SIGTERM):
        signal.signal(it, lambda *_: stopped.append(1))
    context = multiprocessing.get_context("fork")
    is_begun, is_over = context.Event(), context.Event()
    path = os.path.join(folder, "revisions")
    follower = context.Process(target=follow, args=(endpoints, path, clock, is_begun, is_over), daemon=True)
    follower.start()
    is_late = False
    while not is_begun.wait(0.2):
        if not is_late and clock() > LATE:
            is_late = True
            print(f"audit: etcd cannot be followed yet, and is tried again; the lines `said` of {path} say why", file=sys.stderr)
        if stopped or not follower.is_alive():
            follower.kill()
            print("audit: etcd could not be followed: nothing is recorded", file=sys.stderr)
            return 1
    log = Log(os.path.join(folder, "streams"), clock)
    try:
        relays = Relays(pairs, log)
    except OSError as wrong:
        print(f"audit: {wrong}", file=sys.stderr)
        follower.kill()
        return 1
    print(f"recording {' '.join(f'{it[0]}:{it[1]}' for it, _ in pairs)}", flush=True)
    end = time.monotonic() + seconds if seconds else None
    relays.run(lambda: stopped or not follower.is_alive() or end and time.monotonic() > end)
    log.close()
    if not follower.is_alive():
        print("audit: what follows etcd has ended: the record ends there", file=sys.stderr)
        return 1
    is_over.set()
    follower.join()
    print(f"recorded {relays.number} connections", flush=True)
    return 1 if follower.exitcode else 0
