"""Follows etcd's revisions of the keys below `zk/`, through the JSON gateway of one of its members, and writes each into the record.

The record begins with the first revision if etcd still has it and there are not too many since (`MOST_REVISIONS`). Otherwise it begins
with all keys as they were at one revision, and what comes after that.

Nothing may be lost unseen. A watch gives whole revisions, in order; if its stream ends, the next one, of the next member, begins after the
last revision that was written. If etcd has compacted that by then, the line `lost` says which revisions are missing. Besides, the version
of the key `zk/head` is the number of the update: whoever reads the record sees that no number is missing, and by the line `over`, which
has the version at the end, that none is missing there.
"""
import base64
import http.client
import json
import threading
import time

from records import to_hex

PREFIX, END, HEAD = b"zk/", b"zk0", b"zk/head"
MOST_REVISIONS = 200_000
PAGE = 500  # keys that are read at once
PATIENCE = 10.0  # seconds that the end of a record waits for the last revisions


def text64(some):
    return base64.b64encode(some).decode()


def bytes64(text):
    return base64.b64decode(text or "")


class Follower:
    def __init__(self, endpoints, log, lock):
        self.endpoints, self.log, self.lock = endpoints, log, lock
        self.turn, self.next, self.version, self.is_lost, self.last = 0, None, 0, False, 0
        self.is_begun = threading.Event()

    def say(self, words):
        with self.lock:
            self.log.line(words)
            self.log.flush()

    def ask(self, route, body, seconds=10.0):
        """The answer of the member whose turn it is, and the connection that it came over."""
        link = http.client.HTTPConnection(self.endpoints[self.turn % len(self.endpoints)], timeout=seconds)
        link.request("POST", route, json.dumps(body), {"content-type": "application/json"})
        answer = link.getresponse()
        if answer.status != 200:
            raise OSError(f"status {answer.status}: {answer.read(300)!r}")
        return link, answer

    def range(self, key, end=None, **more):
        body = {"key": text64(key), **({"range_end": text64(end)} if end else {}), **more}
        link, answer = self.ask("/v3/kv/range", body)
        found = json.loads(answer.read())
        link.close()
        return int(found["header"]["revision"]), found.get("kvs", [])

    def key_line(self, what, kv):
        self.log.line(f"{what} {kv['mod_revision']} {to_hex(bytes64(kv['key']))} {to_hex(bytes64(kv.get('value')))} "
                      f"{kv['create_revision']} {kv['version']} {kv.get('lease', 0)}")

    def snapshot(self):
        """Begins with all keys at the present revision."""
        revision, found = self.range(PREFIX, END, limit=PAGE)
        while found:
            with self.lock:
                for kv in found:
                    self.key_line("key", kv)
                    if bytes64(kv["key"]) == HEAD:
                        self.version = int(kv["version"])
            _, found = self.range(bytes64(found[-1]["key"]) + b"\0", END, limit=PAGE, revision=revision)
        self.say(f"snapshot {revision}")
        return revision + 1

    def follow(self):
        """Follows for good."""
        while True:
            try:
                if self.next is None:
                    revision, _ = self.range(HEAD)
                    self.say(f"at {revision}")
                    self.next = 1 if revision <= MOST_REVISIONS else self.snapshot()
                self.watch()
                self.say("said the watch ended")
            except (OSError, http.client.HTTPException, ValueError, KeyError) as wrong:
                self.say(f"said {self.endpoints[self.turn % len(self.endpoints)]}: {type(wrong).__name__} {wrong}".replace("\n", " "))
            self.turn += 1
            time.sleep(0.1)

    def watch(self):
        """Takes the lines of one watch. A stream that says nothing for 25 minutes is over: etcd tells each ten minutes where it is."""
        request = {"key": text64(PREFIX), "range_end": text64(END), "start_revision": str(self.next), "progress_notify": True}
        link, answer = self.ask("/v3/watch", {"create_request": request}, 1500.0)
        self.say(f"from {self.next}")
        while line := answer.readline():
            result = json.loads(line).get("result")
            if result is None:
                break
            if int(result.get("compact_revision", 0)):
                self.compacted(int(result["compact_revision"]))
                break
            if result.get("created"):
                self.is_begun.set()
            with self.lock:
                for event in result.get("events", []):
                    self.event(event)
                self.log.flush()
        link.close()

    def event(self, event):
        kv = event["kv"]
        revision = int(kv["mod_revision"])
        if event.get("type") == "DELETE":
            self.log.line(f"delete {revision} {to_hex(bytes64(kv['key']))}")
        else:
            self.key_line("put", kv)
            if bytes64(kv["key"]) == HEAD:
                self.version = int(kv["version"])
        self.last, self.next = revision, revision + 1

    def compacted(self, floor):
        """What comes next is no longer kept."""
        if self.next == 1 and self.last == 0:
            self.next = self.snapshot()
        else:
            self.say(f"lost {self.next} {floor - 1}")
            self.is_lost, self.next = True, floor

    def finish(self):
        """Waits for what etcd has by now, and writes the last line. Gives what is missing, in words; None if nothing is."""
        end, revision, found = time.monotonic() + PATIENCE, None, []
        while revision is None and time.monotonic() < end:
            try:
                revision, found = self.range(HEAD)
            except (OSError, http.client.HTTPException, ValueError, KeyError):
                self.turn += 1
                time.sleep(0.2)
        version = int(found[0]["version"]) if found else 0
        while revision is not None and self.version < version and time.monotonic() < end:
            time.sleep(0.02)
        time.sleep(0.3)  # a lapse is no update: nothing counts it
        with self.lock:
            if revision is not None:
                # An update may have come since etcd was asked, as one that removes a lapsed session.
                if self.version > version:
                    revision, version = self.last, self.version
                self.log.line(f"over {revision} {version}")
            self.log.flush()
        if revision is None:
            return "no member of etcd answers: what it did last is not recorded"
        if self.is_lost:
            return "revisions were compacted before they were read: the record has a gap"
        return None if self.version == version else f"etcd tells of update {self.version} last, and its head says {version}"
