"""What crowds of clients do. Each scene gives figures by name, and is played over zetcd and over ZooKeeper alike."""
import asyncio
import signal
import struct
import time

from session import BAD_VERSION, EPHEMERAL, NO_NODE, NODE_EXISTS, SEQUENCE, Cut, Refused, all_opened, opened
from places import processor
from wire import CHILDREN, CLOSE, CREATE, DELETE, EXISTS, SET, create, delete, put, read


async def parent(ports, path):
    """Makes a node anew that clients make nodes under."""
    session = await opened(ports[0])
    try:
        await session.create(path)
    except Refused as refused:
        if refused.args != (NODE_EXISTS,):
            raise
    await session.leave()


async def timed(stage, jobs, most):
    """Does all jobs at once, for so many seconds at most. Gives the asks, the seconds until the last one ended, how many were done, and
    how many clients were cut off."""
    asks, since = stage.asks(), time.time()
    tasks = [asyncio.ensure_future(it) for it in jobs]
    await asyncio.wait(tasks, timeout=most)
    took = time.time() - since
    asks = stage.asks() - asks
    is_over = [it.done() for it in tasks]
    for it in tasks:
        it.cancel()
    ends = await asyncio.gather(*tasks, return_exceptions=True)
    for it in ends:
        if isinstance(it, BaseException) and not isinstance(it, (Cut, asyncio.CancelledError)):
            raise it
    cut = sum(isinstance(it, Cut) for it in ends)
    return {"asks": asks, "seconds": took, "done": sum(is_over) - cut, "cut": cut}


def abort(sessions):
    for it in sessions:
        it.transport.abort()


async def creates(stage, count):
    """So many clients make an ephemeral sequence node each under one parent, at once."""
    await parent(stage.ports, b"/creates")
    sessions = await all_opened(stage.ports, count)
    found = await timed(stage, [it.create(b"/creates/n-", b"", EPHEMERAL | SEQUENCE) for it in sessions], 60)
    abort(sessions)
    return {**found, "asks": found["asks"] / count}


async def frozen(stage, count, each, seconds):
    """So many clients make so many such nodes each, one after the other, and etcd stands still in the middle."""
    await parent(stage.ports, b"/frozen")
    sessions = await all_opened(stage.ports, count, 8_000)
    made = 0

    async def make(session):
        nonlocal made
        for _ in range(each):
            await session.create(b"/frozen/n-", b"", EPHEMERAL | SEQUENCE)
            made += 1

    async def freeze():
        server = stage.etcd.process if hasattr(stage, "etcd") else stage.server
        while made < count * each // 6:
            await asyncio.sleep(0.01)
        server.send_signal(signal.SIGSTOP)
        try:
            await asyncio.sleep(seconds)
        finally:
            server.send_signal(signal.SIGCONT)

    freezer = asyncio.ensure_future(freeze())
    found = await timed(stage, [make(it) for it in sessions], 60)
    freezer.cancel()
    await asyncio.gather(freezer, return_exceptions=True)
    abort(sessions)
    return {**found, "done": made, "asks": found["asks"] / max(made, 1)}


async def lock(session):
    """Takes a lock by ZooKeeper's recipe: a sequence node, and a watch on the one before it. Gives its own node."""
    own = await session.create(b"/locks/n-", b"", EPHEMERAL | SEQUENCE)
    while True:
        answer, names, at = await session.does(CHILDREN, read(b"/locks")), [], 4
        for _ in range(struct.unpack(">i", answer[:4])[0]):
            length = struct.unpack(">i", answer[at:at + 4])[0]
            names.append(answer[at + 4:at + 4 + length])
            at += 4 + length
        names.sort()
        place = names.index(own.rpartition(b"/")[2])
        if place == 0:
            return own
        before = b"/locks/" + names[place - 1]
        notice = session.notice(before)
        error, _ = await session.ask(EXISTS, read(before, True))
        if error == 0:
            await notice
        elif error != NO_NODE:
            raise Refused(error)


async def locks(stage, count, seconds):
    """So many clients take one lock again and again; who has it makes a counter larger by one."""
    for path in (b"/locks", b"/locked"):
        await parent(stage.ports, path)
    sessions = await all_opened(stage.ports, count)
    await sessions[0].set(b"/locked", b"0")
    end, made = time.time() + seconds, 0

    async def work(session):
        nonlocal made
        while True:
            own = await lock(session)
            if time.time() > end:
                return
            content, version = await session.get(b"/locked")
            await session.set(b"/locked", b"%d" % (int(content) + 1), version)
            made += 1
            await session.does(DELETE, delete(own))

    found = await timed(stage, [work(it) for it in sessions], seconds)
    abort(sessions)
    last = await opened(stage.ports[0])
    content, _ = await last.get(b"/locked")
    await last.leave()
    # One increment may have been carried out and not answered when time was over.
    if int(content) not in (made, made + 1):
        raise AssertionError(f"{made} increments were made, and the counter is at {content.decode()}")
    return {**found, "made": made, "asks": found["asks"] / max(made, 1)}


async def storm(stage, count, each, most=60):
    """So many sessions make so many ephemeral nodes each under one node."""
    await parent(stage.ports, b"/storm")
    sessions = await all_opened(stage.ports, count)
    made = 0

    async def make(number, session):
        nonlocal made
        for n in range(each):
            await session.create(b"/storm/s%d-%d" % (number, n), b"", EPHEMERAL)
            made += 1

    found = await timed(stage, [make(*it) for it in enumerate(sessions)], most)
    abort(sessions)
    return {**found, "made": made, "asks": found["asks"] / max(made, 1)}


async def counter(stage, count):
    """So many clients make one counter larger by one each: they read it, set it with its version, and begin again if it has another one."""
    await parent(stage.ports, b"/counter")
    sessions = await all_opened(stage.ports, count)
    await sessions[0].set(b"/counter", b"0")
    tries = 0

    async def increase(session):
        nonlocal tries
        while True:
            content, version = await session.get(b"/counter")
            tries += 1
            error, _ = await session.ask(SET, put(b"/counter", b"%d" % (int(content) + 1), version))
            if error == 0:
                return
            if error != BAD_VERSION:
                raise Refused(error)

    found = await timed(stage, [increase(it) for it in sessions], 60)
    content, _ = await sessions[0].get(b"/counter")
    abort(sessions)
    if int(content) != found["done"]:
        raise AssertionError(f"{found['done']} increments were answered, and the counter is at {content.decode()}")
    return {**found, "tries": tries}


async def closes(stage, count, each):
    """So many sessions with so many ephemeral nodes each under one parent close at once."""
    await parent(stage.ports, b"/closes")
    sessions = await all_opened(stage.ports, count)
    for n in range(each):
        for number, it in enumerate(sessions):
            await it.create(b"/closes/s%d-%d" % (number, n), b"", EPHEMERAL)
    found = await timed(stage, [it.does(CLOSE) for it in sessions], 60)
    abort(sessions)
    return {**found, "asks": found["asks"] / count}


async def watched(stage, count):
    """So many sessions, each of which watches a node of its own, which another session made."""
    await parent(stage.ports, b"/watched")
    maker = await opened(stage.ports[-1], 40_000)
    for error, _ in await asyncio.gather(*(maker.ask(CREATE, create(b"/watched/%d" % n, b"")) for n in range(count))):
        if error not in (0, NODE_EXISTS):
            raise Refused(error)
    sessions = await all_opened(stage.ports[:1], count, 40_000)
    for number, it in enumerate(sessions):
        await it.get(b"/watched/%d" % number, True)
    return maker, sessions


async def watchers(stage, count, updates=1_000):
    """The server's processor time for a setData of one node, while so many sessions watch others."""
    maker, sessions = await watched(stage, count)
    await maker.create(b"/watched/other%d" % count, b"")
    pid = stage.server.pid
    # What idle sessions cost is no update's.
    used, since = processor(pid), time.time()
    await asyncio.sleep(2)
    idle = (processor(pid) - used) / (time.time() - since)
    used, since = processor(pid), time.time()
    for _ in range(updates):
        await maker.set(b"/watched/other%d" % count, b"x" * 100)
    await asyncio.sleep(0.2)
    took = time.time() - since
    spent = processor(pid) - used - idle * took
    cut = sum(it.is_ended for it in sessions)
    abort([maker, *sessions])
    return {"microseconds": 1e6 * spent / updates, "cut": cut}


async def silent(stage, count, updates):
    """So many sessions watch nodes of their own at one proxy, which stands still while another one serves so many updates of other
    nodes. Gives how many of them are closed, and how late the others are told of updates of their nodes."""
    maker, sessions = await watched(stage, count)
    makers = await all_opened(stage.ports[1:], 16, 40_000)
    for n, it in enumerate(makers):
        await it.create(b"/watched/other%d" % n, b"")
    stage.server.send_signal(signal.SIGSTOP)
    try:
        for _ in range(updates // (16 * 10)):
            await asyncio.gather(*(it.set(b"/watched/other%d" % n, b"x") for n, it in enumerate(makers) for _ in range(10)))
    finally:
        stage.server.send_signal(signal.SIGCONT)
    notices = [asyncio.ensure_future(it.notice(b"/watched/%d" % n)) for n, it in enumerate(sessions) if not it.is_ended]
    since = time.time()
    for n in range(count):
        await maker.set(b"/watched/%d" % n, b"y")
    await asyncio.wait(notices, timeout=20)
    took = time.time() - since
    told = sum(it.done() and not it.exception() for it in notices)
    cut = sum(it.is_ended for it in sessions)
    for it in notices:
        it.cancel()
    await asyncio.gather(*notices, return_exceptions=True)
    abort([maker, *makers, *sessions])
    return {"told": told, "seconds": took, "cut": cut, "causes": stage.causes()}
