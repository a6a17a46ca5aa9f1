"""The scenes of bench/crowd.sh: run.py PROGRAM FOLDER [SCENE..]."""
import asyncio
import resource
import signal
import sys
import time
import traceback

import scenes
from cluster import ZooKeeper
from places import Ours, Theirs, ended

MISSED = []


class Place:
    """Where scenes are played: over proxies, or over ZooKeeper."""

    def __init__(self, program, work):
        self.program, self.work, self.zookeeper = program, work, ZooKeeper(work)
        if not self.zookeeper.is_up:
            raise RuntimeError("ZooKeeper does not come up")

    def ours(self, proxies, scene, *words):
        with ended(Ours(self.program, self.work, proxies)) as stage:
            return asyncio.run(scene(stage, *words))

    def theirs(self, scene, *words):
        return asyncio.run(scene(Theirs(self.zookeeper), *words))


def tell(what, text, **wanted):
    """Prints a figure, with whatever is wanted of it and missed: `name=(found, least, most)`."""
    missed = []
    for name, (found, least, most) in wanted.items():
        if least is not None and found < least:
            missed.append(f"{name} {found:.4g}, wanted at least {least:g}")
        if most is not None and found > most:
            missed.append(f"{name} {found:.4g}, wanted at most {most:g}")
    MISSED.extend(missed)
    print(f"{'MISSED' if missed else 'ok    '} {what:44s} {text}" + "".join(f"  [{it}]" for it in missed), flush=True)


def creates(place):
    for count in (10, 50, 100, 200):
        theirs = place.theirs(scenes.creates, count)
        for proxies in (1, 2, 3):
            found = place.ours(proxies, scenes.creates, count)
            text = f"{found['asks']:6.2f} asks each, over after {found['seconds']:.2f} s, {found['cut']} cut, {found['done']} made"
            tell(f"{count} creates at once, proxies: {proxies}", f"{text}; ZooKeeper {theirs['seconds']:.2f} s",
                 asks=(found["asks"], None, 2.2 if proxies == 1 else 3.5), made=(found["done"], count, None),
                 seconds=(found["seconds"], None, 1.5))


def freeze(place):
    count, each, seconds = 200, 3, 3.0
    theirs = place.theirs(scenes.frozen, count, each, seconds)
    found = place.ours(1, scenes.frozen, count, each, seconds)
    tell(f"{count} clients, {each} creates each, a freeze of {seconds:g} s",
         f"{found['asks']:6.2f} asks each, {found['seconds']:.2f} s, {found['cut']} cut, {found['done']} made; ZooKeeper, frozen itself, "
         f"{theirs['seconds']:.2f} s, {theirs['cut']} cut, {theirs['done']} made",
         seconds=(found["seconds"], None, 6.0), cut=(found["cut"], None, 0), made=(found["done"], count * each, None))


def locks(place):
    count, seconds = 200, 20
    theirs = place.theirs(scenes.locks, count, seconds)
    found = place.ours(1, scenes.locks, count, seconds)
    tell(f"a lock queue of {count} for {seconds} s",
         f"{found['made']} increments, {found['asks']:.1f} asks each, {found['cut']} cut; ZooKeeper {theirs['made']}, {theirs['cut']} cut",
         increments=(found["made"], 300, None), cut=(found["cut"], None, 0))


def storm(place):
    count, each = 100, 40
    theirs = place.theirs(scenes.storm, count, each)
    found = place.ours(1, scenes.storm, count, each)
    tell(f"a storm of {count} sessions with {each} ephemerals",
         f"{found['made']} made in {found['seconds']:.1f} s, {found['asks']:.2f} asks each, {found['cut']} lost; ZooKeeper "
         f"{theirs['made']} in {theirs['seconds']:.1f} s",
         made=(found["made"], count * each, None), seconds=(found["seconds"], None, 20), lost=(found["cut"], None, 0))


def counter(place):
    count = 50
    theirs = place.theirs(scenes.counter, count)
    found = place.ours(1, scenes.counter, count)
    tell(f"a counter of {count} clients",
         f"{found['tries']} tries, {found['asks']:.0f} asks, {found['seconds']:.2f} s, {found['cut']} cut; ZooKeeper {theirs['tries']} tries, "
         f"{theirs['seconds']:.2f} s", done=(found["done"], count, None))


def closes(place):
    count, each = 40, 3
    theirs = place.theirs(scenes.closes, count, each)
    found = place.ours(1, scenes.closes, count, each)
    tell(f"{count} closes of sessions with {each} nodes",
         f"{found['asks']:6.2f} asks each, {found['seconds']:.2f} s, {found['cut']} cut; ZooKeeper {theirs['seconds']:.2f} s",
         asks=(found["asks"], None, 5), closed=(found["done"], count, None))


def watchers(place):
    alone = None
    for count in (0, 60, 230):
        theirs = place.theirs(scenes.watchers, count)
        found = place.ours(1, scenes.watchers, count)
        alone = alone or found["microseconds"]
        tell(f"a setData beside {count} watchers of other nodes",
             f"{found['microseconds']:6.0f} us of the proxy's processor; {theirs['microseconds']:.0f} us of ZooKeeper's",
             times=(found["microseconds"] / alone, None, 2.5 if count == 230 else None), cut=(found["cut"], None, 0))


def silent(place):
    count, updates = 200, 8_000
    found = place.ours(2, scenes.silent, count, updates)
    causes = ", ".join(f"{many} {cause}" for cause, many in found["causes"].items())
    tell(f"{count} silent watchers, {updates} updates in a pause",
         f"{found['cut']} closed ({causes}), {found['told']} told, the last after {found['seconds']:.1f} s", closed=(found["cut"], None, 0),
         told=(found["told"], count, None))


SCENES = {it.__name__: it for it in (creates, freeze, locks, storm, counter, closes, watchers, silent)}


def main():
    for it in (signal.SIGTERM, signal.SIGHUP):
        signal.signal(it, lambda *_: sys.exit(130))
    _soft, hard = resource.getrlimit(resource.RLIMIT_NOFILE)
    resource.setrlimit(resource.RLIMIT_NOFILE, (hard, hard))
    program, work, chosen = sys.argv[1], sys.argv[2], sys.argv[3:] or list(SCENES)
    unknown = [it for it in chosen if it not in SCENES]
    if unknown:
        print(f"no scene {' '.join(unknown)}; there are {' '.join(SCENES)}", file=sys.stderr)
        return 2
    place = Place(program, work)
    try:
        for name in chosen:
            since, load = time.time(), open("/proc/loadavg").read().split()[0]
            try:
                SCENES[name](place)
            except Exception as wrong:  # each scene by itself
                MISSED.append(name)
                print(f"FAILED {name}: {type(wrong).__name__} {wrong}", flush=True)
                traceback.print_exc(file=sys.stderr)
            print(f"       ({name}: {time.time() - since:.0f} s, load {load} at its beginning)", flush=True)
    finally:
        place.zookeeper.end()
    print(f"{len(MISSED)} figures missed" if MISSED else "every figure is as wanted")
    return 1 if MISSED else 0


sys.exit(main())
