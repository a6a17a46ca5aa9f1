"""The checks of bench/hostile.sh: run.py PROGRAM FOLDER [PART | CHECK].."""
import resource
import signal
import sys
import time
import traceback

import behind
import clients
import descriptors
import etcds
import floods
import lapses
import memory
import watches

PARTS = {"clients": clients.checks, "floods": floods.checks, "descriptors": descriptors.checks, "lapses": lapses.checks,
         "behind": behind.checks, "etcds": etcds.checks, "watches": watches.checks, "memory": memory.checks}


def main():
    # If memory runs out, these processes go first.
    with open("/proc/self/oom_score_adj", "w") as score:
        score.write("1000")
    _soft, hard = resource.getrlimit(resource.RLIMIT_NOFILE)
    resource.setrlimit(resource.RLIMIT_NOFILE, (hard, hard))
    for it in (signal.SIGTERM, signal.SIGHUP):
        signal.signal(it, lambda *_: sys.exit(130))
    program, work, parts = sys.argv[1], sys.argv[2], sys.argv[3:] or list(PARTS)
    chosen = [it for part in parts for name, checks in PARTS.items() for it in checks if part in (name, it.__name__)]
    passed, failed = 0, 0
    for check in chosen:
        name, since = check.__name__.replace("_", " "), time.time()
        load = open("/proc/loadavg").read().split()[0]
        try:
            told = check(program, work)
            passed += 1
            print(f"ok     {name} ({time.time() - since:.0f} s, load {load}): {told}", flush=True)
        except Exception as wrong:  # each check by itself
            failed += 1
            print(f"FAILED {name} ({time.time() - since:.0f} s, load {load}): {type(wrong).__name__} {wrong}", flush=True)
            traceback.print_exc(file=sys.stderr)
    print(f"{passed} passed, {failed} failed")
    return 1 if failed or not chosen else 0


sys.exit(main())
