"""Sends the same asks to two gateways of etcd, and compares what they answer: `etcd.py REAL OURS`, each HOST:PORT and new. With no
words it prints the asks that are not refused, a line each: a route, a blank and a body. See etcd.sh. What is left out of an answer: which cluster, member and term answered, the headers inside a transaction's responses, and
how a refusal is worded; the order of members means nothing. What differs by choice is asserted as it is chosen."""

import base64
import http.client
import json
import sys


def b64(text):
    return base64.b64encode(text.encode()).decode()


def put(key, value, **more):
    return {"request_put": {"key": b64(key), "value": b64(value), **more}}


def get(key, **more):
    return {"request_range": {"key": b64(key), **more}}


def delete(key):
    return {"request_delete_range": {"key": b64(key)}}


def guard(key, revision):
    return {"key": b64(key), "target": "MOD", "result": "EQUAL", "mod_revision": str(revision)}


def txn(compare=(), success=(), failure=()):
    return "/v3/kv/txn", {"compare": list(compare), "success": list(success), "failure": list(failure)}


def reads(key, **more):
    return "/v3/kv/range", {"key": b64(key), **more}


ASKS = [
    ("a read of nothing", *txn(success=[get("zk/head")])),
    ("a range of nothing", *reads("a")),
    ("a put under a guard on an absent key", *txn([guard("a", 0)], [put("a", "1")], [get("a")])),
    ("the same again: the guard fails, and the key is read", *txn([guard("a", 0)], [put("a", "1")], [get("a")])),
    ("a put under a guard on its revision", *txn([guard("a", 2)], [put("a", "2")])),
    ("an empty value", *txn(success=[put("b", "")])),
    ("a guard that fails, and nothing to do", *txn([guard("a", 1)], [put("a", "3")])),
    ("several at once", *txn([guard("a", 3), guard("b", 4)], [put("c/1", "x"), put("c/2", "y"), put("c/3", "z"), get("a")])),
    ("a read after a put of the same transaction", *txn(success=[put("d", "1"), get("d")])),
    ("a range", *reads("c/", range_end=b64("c0"))),
    ("a range of two", *reads("c/", range_end=b64("c0"), limit="2")),
    ("a range of keys alone", *reads("c/", range_end=b64("c0"), keys_only=True)),
    ("two of these", *reads("c/", range_end=b64("c0"), keys_only=True, limit="2")),
    ("a key as it was", *reads("a", revision="2")),
    ("a key before it was", *reads("b", revision="2")),
    ("a key at the present revision", *reads("a", revision="6")),
    ("a range in a transaction, as it was", *txn(success=[get("a", revision="2"), get("c/", range_end=b64("c0"))])),
    ("a delete", *txn([guard("a", 3)], [delete("a")])),
    ("a delete of nothing", *txn(success=[delete("a")])),
    ("a put after a delete begins a new life", *txn([guard("a", 0)], [put("a", "4")])),
    ("a key that was deleted, as it was", *reads("a", revision="3")),
    ("a key while it was away", *reads("a", revision="7")),
    ("a transaction of nothing", *txn()),
    ("a grant", "/v3/lease/grant", {"ID": "17", "TTL": "30"}),
    ("a put with a lease", *txn(success=[put("e", "1", lease="17")])),
    ("a read of it", *reads("e")),
    ("a keepalive", "/v3/lease/keepalive", {"ID": "17"}),
    ("a keepalive of no lease", "/v3/lease/keepalive", {"ID": "99"}),
    ("a put that drops the lease", *txn([guard("e", 9)], [put("e", "2")])),
    ("a read of it again", *reads("e")),
    ("128 guards, and 128 puts", *txn([guard(f"f{n}", 0) for n in range(128)], [put(f"f{n}", "v") for n in range(128)])),
    ("a range of them", *reads("f", range_end=b64("g"), limit="3")),
]

REFUSED = [
    ("a revision to come", *reads("a", revision="99")),
    ("a lease that exists", "/v3/lease/grant", {"ID": "17", "TTL": "30"}),
    ("a put with no such lease", *txn(success=[put("e", "1", lease="5")])),
    ("a key that is put twice", *txn(success=[put("g", "1"), put("g", "2")])),
    ("a key that is put and deleted", *txn(success=[put("g", "1"), delete("g")])),
    ("the same in the list that is not chosen", *txn(failure=[put("g", "1"), put("g", "2")])),
    ("129 guards", *txn([guard(f"h{n}", 0) for n in range(129)])),
    ("129 puts", *txn(success=[put(f"h{n}", "v") for n in range(129)])),
    ("129 puts in the list that is not chosen", *txn(failure=[put(f"h{n}", "v") for n in range(129)])),
    ("a key that is no base64", "/v3/kv/range", {"key": "*"}),
    ("a revision that is no number", "/v3/kv/range", {"key": "YQ==", "revision": "x"}),
    ("a value of another kind", "/v3/kv/txn", {"success": 5}),
]


class Gateway:
    def __init__(self, address):
        self.address = address
        self.link = http.client.HTTPConnection(address, timeout=20)

    def ask(self, route, body):
        self.link.request("POST", route, body if isinstance(body, str) else json.dumps(body))
        response = self.link.getresponse()
        return response.status, response.read().decode()

    def watch(self, key, first):
        """A stream of lines; it has a connection of its own."""
        link = http.client.HTTPConnection(self.address, timeout=20)
        link.request("POST", "/v3/watch", json.dumps({"create_request": {"key": b64(key), "start_revision": str(first)}}))
        return link.getresponse()


def plain(value, top=True):
    """A message without what may differ."""
    if isinstance(value, list):
        return [plain(item, False) for item in value]
    if not isinstance(value, dict):
        return value
    found = {name: plain(item, top and name == "result") for name, item in value.items() if name != "header"}
    if top and "header" in value:
        found["revision"] = value["header"].get("revision")
    return found


def line(stream):
    message = plain(json.loads(stream.readline()))["result"]
    # A line's own revision may be above that of its events.
    return {"created": True} if "created" in message else message.get("events")


def main():
    if len(sys.argv) == 1:
        for _, route, body in ASKS:
            print(route, json.dumps(body))
        return
    both = [Gateway(address) for address in sys.argv[1:3]]
    problems = []

    def differs(name, real, ours):
        problems.append(f"{name}:\n  etcd       {real}\n  zetcd etcd {ours}")

    for name, route, body in ASKS:
        (status, text), (our_status, our_text) = [gateway.ask(route, body) for gateway in both]
        if status != 200 or our_status != 200 or plain(json.loads(text)) != plain(json.loads(our_text)):
            differs(name, text, our_text)

    for name, route, body in REFUSED:
        (status, text), (our_status, our_text) = [gateway.ask(route, body) for gateway in both]
        if status == 200 or our_status != 400 or our_text not in ('{"error":"denied"}', '{"error":"unreadable"}'):
            differs(name, text, our_text)

    # What is put while a watch is on, and what was put before.
    streams = [gateway.watch("w", 1) for gateway in both]
    if line(streams[0]) != {"created": True} or line(streams[1]) != {"created": True}:
        problems.append("the first line of a watch")
    for number in range(5):
        for gateway in both:
            gateway.ask(*txn(success=[put("w", str(number)), put("other", str(number))]))
        told = [line(stream) for stream in streams]
        if told[0] != told[1]:
            differs(f"line {number} of a watch", *told)
    streams = [gateway.watch("w", 1) for gateway in both]
    told = [[], []]
    for at, stream in enumerate(streams):
        if line(stream) != {"created": True}:
            problems.append("the first line of a watch that starts after")
        # etcd may tell of several revisions in one line, and zetcd tells of each in a line of its own.
        while len(told[at]) < 5:
            told[at] += line(stream)
    if told[0] != told[1]:
        differs("a watch that starts after", *told)

    # By choice: a delete is of one key.
    body = {"success": [{"request_delete_range": {"key": b64("c/"), "range_end": b64("c0")}}]}
    if both[1].ask("/v3/kv/txn", body) != (400, '{"error":"unreadable"}'):
        problems.append("a delete of a range is not refused")

    for problem in problems:
        print(problem)
    count = len(ASKS) + len(REFUSED) + 6
    print(f"{count} asks and lines of a watch: {'no answer differs' if not problems else f'{len(problems)} differ'}")
    sys.exit(1 if problems else 0)


main()
