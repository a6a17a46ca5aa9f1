"""An etcd of three members, whose streams to each other go through relays, so that one member can be cut off from the others."""
import os
import socket
import threading

from cluster import Etcd, Members, free_port, until


def owner_of(port, processes):
    """Which of these processes has the stream that leaves from this port of the loopback."""
    with open("/proc/net/tcp") as lines:
        ends = [line.split() for line in lines]
    inodes = [it[9] for it in ends[1:] if len(it) > 9 and it[1].endswith(f":{port:04X}") and it[9] != "0"]
    for number, process in enumerate(processes):
        try:
            folder = f"/proc/{process.pid}/fd"
            if any(os.readlink(f"{folder}/{it}") == f"socket:[{inode}]" for inode in inodes for it in os.listdir(folder)):
                return number
        except OSError:
            pass
    return None


class Relay:
    """Stands before the peer port of one member of `members`, and hands on what others send it, unless one of the two is cut off."""

    def __init__(self, members, number, port, peer):
        self.members, self.number, self.peer, self.streams = members, number, peer, []
        self.listener = socket.create_server(("127.0.0.1", port))
        threading.Thread(target=self.accept, daemon=True).start()

    def accept(self):
        while True:
            try:
                here, (_host, port) = self.listener.accept()
            except OSError:
                return
            threading.Thread(target=self.take, args=(here, port), daemon=True).start()

    def take(self, here, port):
        ends = {self.number, owner_of(port, [it.process for it in self.members.members])}
        try:
            if self.is_cut(ends):
                raise OSError("cut off")
            there = socket.create_connection(("127.0.0.1", self.peer), 5)
            there.settimeout(None)
        except OSError:
            here.close()
            return
        self.streams.append((ends, here, there))
        for one, other in ((here, there), (there, here)):
            threading.Thread(target=self.hand_on, args=(one, other), daemon=True).start()
        if self.is_cut(ends):
            self.drop()

    def is_cut(self, ends):
        """Whether one of these is cut off. A dialler that could not be told, since it is gone again, may be the one."""
        return self.members.cut is not None and (self.members.cut in ends or None in ends)

    def hand_on(self, one, other):
        try:
            while data := one.recv(65536):
                other.sendall(data)
        except OSError:
            pass
        for it in (one, other):
            try:
                it.shutdown(socket.SHUT_RDWR)
            except OSError:
                pass

    def drop(self):
        """Ends the streams of the member that is cut off."""
        for ends, *streams in list(self.streams):
            if self.is_cut(ends):
                for it in streams:
                    try:
                        it.shutdown(socket.SHUT_RDWR)
                    except OSError:
                        pass

    def end(self):
        try:
            self.listener.shutdown(socket.SHUT_RDWR)
        except OSError:
            pass
        self.listener.close()


class PartedMembers(Members):
    """`cut`: the number of the member that is cut off."""

    def __init__(self, work, size=3):
        self.cut, self.members, self.relays = None, [], []
        peers, ports = [free_port() for _ in range(size)], [free_port() for _ in range(size)]
        urls = [f"http://127.0.0.1:{port}" for port in ports]
        all_of_them = ",".join(f"m{n}={url}" for n, url in enumerate(urls))
        try:
            for n in range(size):
                self.relays.append(Relay(self, n, ports[n], peers[n]))
            for n in range(size):
                self.members.append(Etcd(work, "--name", f"m{n}", "--initial-advertise-peer-urls", urls[n], "--initial-cluster", all_of_them,
                                         peer=peers[n], is_awaited=False))
            if not until(lambda: all(it.is_healthy() for it in self.members), 60):
                raise RuntimeError("the members do not come up")
        except BaseException:
            self.end()
            raise
        self.address = ",".join(it.address for it in self.members)

    def part(self, number):
        """Cuts a member off from the others. Its clients still reach it."""
        self.cut = number
        for it in self.relays:
            it.drop()

    def heal(self):
        self.cut = None

    def end(self):
        for it in self.relays:
            it.end()
        super().end()
