"""A server under attack, with another client, and what it takes meanwhile."""
import os
import random
import sys
import threading
import time
from contextlib import contextmanager

import cluster
from cluster import Etcd, Proxy, until
from wire import Other, dial

cluster.PORTS = iter(random.sample(range(24_500, 32_000), 7_500))

# A server that takes more than this is ended by its meter, so that the machine goes on.
MOST_MEGABYTES = 6_000
# Of a proxy without clients: that which listens, that which follows the updates, and four reapers.
THREADS = 6
# How long another client may wait for a create, a getData and a delete, in seconds. A machine that is busy with other work makes all of
# them wait; the median is what shows whether it is served.
WORST, MEDIAN = 25.0, 5.0


def numbers(pid):
    """What /proc says of a process: megabytes now and at the peak, threads, descriptors, and seconds of processor time."""
    status = dict(line.split(":", 1) for line in open(f"/proc/{pid}/status"))
    # The clock of its processor time (clock_getcpuclockid(3)), which is exact; the ticks in its `stat` miss short runs.
    seconds = time.clock_gettime((~pid << 3) | 2)
    megabytes = [int(status[name].split()[0]) / 1024 for name in ("VmRSS", "VmHWM")]
    return megabytes[0], megabytes[1], int(status["Threads"]), len(os.listdir(f"/proc/{pid}/fd")), seconds


class Meter(threading.Thread):
    """Looks ten times a second what a process takes."""

    def __init__(self, process):
        super().__init__(daemon=True)
        self.process, self.is_over, self.turns, self.is_too_large = process, threading.Event(), [], False
        self.first = numbers(process.pid)
        self.start()

    def run(self):
        while not self.is_over.wait(0.1):
            try:
                found = numbers(self.process.pid)
            except (OSError, KeyError, IndexError):
                return
            self.turns.append((time.time(), *found))
            if found[0] > MOST_MEGABYTES:
                self.is_too_large = True
                self.process.kill()

    def grown(self):
        """By how many megabytes it grew at most since the meter was there."""
        return max([it[2] for it in self.turns] or [self.first[1]]) - self.first[0]

    def now(self):
        """By how many megabytes it is larger now."""
        return numbers(self.process.pid)[0] - self.first[0]

    def cores(self, since):
        """How many processors it used from this moment on."""
        turns = [it for it in self.turns if it[0] >= since]
        return (turns[-1][5] - turns[0][5]) / (turns[-1][0] - turns[0][0]) if len(turns) > 1 else 0.0

    def seconds(self):
        return (self.turns[-1][5] if self.turns else self.first[4]) - self.first[4]

    def stop(self):
        self.is_over.set()
        self.join()


class Stage:
    """A proxy over an etcd, or over a relay in front of it, and another client of the proxy."""

    def __init__(self, proxy, etcd, relay):
        self.proxy, self.etcd, self.relay, self.port = proxy, etcd, relay, proxy.port
        self.other = Other(self.port)
        self.meter = Meter(proxy.process)
        self.since = time.time()

    def closed(self):
        """The causes of the connections that have ended, by their number. A dial has the proxy write their lines."""
        dial(self.port).close()
        found = {}
        for line in self.proxy.lines():
            words = line.split(" ", 2)
            if words[0] == "closed":
                found[int(words[1])] = words[2]
        return found

    def causes(self, numbers, seconds=15.0):
        """The causes of these connections, in their order, once all of them have ended; None for each that has not in so many seconds."""
        found = {}

        def are_told():
            found.update(self.closed())
            return all(it in found for it in numbers)

        until(are_told, seconds, 0.2)
        return [found.get(it) for it in numbers]

    def says(self, words, seconds=5.0):
        """Whether the proxy comes to say these words on standard error."""
        return until(lambda: any(words in it for it in self.proxy.faults()), seconds)

    def told(self, *more):
        """What was measured, and whether it is within the bounds of every check."""
        times = sorted(self.other.times)
        assert not self.meter.is_too_large, f"it takes more than {MOST_MEGABYTES} MB"
        assert self.other.fault is None, f"another client is cut off: {type(self.other.fault).__name__} {self.other.fault}"
        assert times, "another client is not served"
        median, worst = times[len(times) // 2], times[-1]
        said = [f"+{self.meter.grown():.0f} MB", f"{self.meter.seconds():.1f} s of processor", *more,
                f"another client {len(times)} times, {1000 * median:.0f} ms, at most {1000 * worst:.0f}"]
        text = "; ".join(said)
        assert median <= MEDIAN and worst <= WORST, text
        return text

    def bounds(self, megabytes, seconds=None):
        """Asserts that it grew by at most so many megabytes, and used so many seconds of processor time."""
        assert self.meter.grown() <= megabytes, f"it grew by {self.meter.grown():.0f} MB, not {megabytes}"
        assert seconds is None or self.meter.seconds() <= seconds, f"it used {self.meter.seconds():.1f} s, not {seconds}"


@contextmanager
def staged(program, work, relay=None):
    """A stage; `relay` makes a relay in front of this etcd."""
    etcd = Etcd(work, "--quota-backend-bytes", "8589934592", "--log-level", "error")
    between = proxy = stage = None
    try:
        between = relay(etcd.port) if relay else None
        proxy = Proxy(program, between.address if between else etcd.address, work)
        stage = Stage(proxy, etcd, between)
        yield stage
    except Exception:
        if stage:
            # A dial has the proxy write the causes.
            stage.closed()
            time.sleep(1)
            print(f"The proxy wrote {proxy.lines()[-20:]} and said {proxy.faults()[-20:]}", file=sys.stderr, flush=True)
        raise
    finally:
        if stage:
            stage.other.is_over.set()
            stage.meter.stop()
        if proxy:
            proxy.end()
        if between:
            between.end()
        etcd.end()
