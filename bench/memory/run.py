"""The sweeps of bench/memory.sh: run.py PROGRAM CONN_ROWS HUB_ROWS LIBRARY FOLDER [PART | NAME].."""
import os
import signal
import sys
import time
from concurrent.futures import ThreadPoolExecutor

import servers
import sweeps

# The parts. The sweeps of the first three run side by side; of a server the runs do.
PARTS = {"examples": sweeps.examples, "rows": sweeps.rows, "load": sweeps.load, "etcd": servers.etcd, "serve": servers.serve}
SIDE_BY_SIDE = ("examples", "rows", "load")


class Run:
    def __init__(self, program, conn_rows, hub_rows, library, work, names):
        self.program, self.library, self.work = os.path.abspath(program), library, work
        self.conn_rows, self.hub_rows = (os.path.abspath(it) if os.access(it, os.X_OK) else None for it in (conn_rows, hub_rows))
        self.every, self.names = int(os.environ.get("EVERY", "1")), names
        self.pool = ThreadPoolExecutor(int(os.environ.get("JOBS", "0")) or os.cpu_count())

    def is_wanted(self, name):
        return not self.names or name in self.names

    def each(self, job, items):
        return self.pool.map(job, items)


def tell(ends, seconds):
    kinds = ", ".join(f"{count} {kind}" for kind, count in sorted(ends.kinds.items(), key=lambda it: -it[1]))
    print(f"{'FAILED' if ends.wrong else 'ok    '} {ends.name} ({seconds:.0f} s): {sum(ends.kinds.values())} allocations: {kinds}", flush=True)
    for wrong in ends.wrong[:20]:
        print(f"       {wrong}", flush=True)


def main():
    for it in (signal.SIGTERM, signal.SIGHUP):
        signal.signal(it, lambda *_: sys.exit(130))
    program, conn_rows, hub_rows, library, work, *chosen = sys.argv[1:]
    parts = [it for it in chosen if it in PARTS]
    run = Run(program, conn_rows, hub_rows, library, work, [it for it in chosen if it not in PARTS])
    total, wrong, kinds = 0, 0, {}
    for part, jobs in PARTS.items():
        if parts and part not in parts:
            continue
        jobs, since = list(jobs(run)), time.time()
        # A server's runs use the pool themselves.
        found = run.each(lambda job: job(), jobs) if part in SIDE_BY_SIDE else (job() for job in jobs)
        for ends in found:
            tell(ends, time.time() - since)
            total, wrong = total + sum(ends.kinds.values()), wrong + len(ends.wrong)
            for kind, count in ends.kinds.items():
                kinds[kind] = kinds.get(kind, 0) + count
    print(f"{total} allocations refused: " + ", ".join(f"{count} {kind}" for kind, count in sorted(kinds.items(), key=lambda it: -it[1])))
    return 1 if wrong or not total else 0


sys.exit(main())
