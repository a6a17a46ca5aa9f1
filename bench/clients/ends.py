"""Each end of a proxy has its status and its line."""
import os
import socket
import subprocess
import time

from kazoo.client import KazooClient

from basics import kazoos, two_proxies
from cluster import Etcd, Proxy, free_port, until


def it_ends_after_its_limit(program, work):
    etcd = Etcd(work)
    try:
        proxy = Proxy(program, etcd.address, work, limit=2)
        for _ in range(2):
            with kazoos(proxy.address) as (a,):
                a.get_children("/")
        assert proxy.status() == 0
        assert proxy.lines() == [f"listening {proxy.address}", "closed 1 closed", "closed 2 closed"], proxy.lines()
        assert proxy.faults() == [], proxy.faults()
    finally:
        etcd.end()


def no_etcd_is_a_net_fault(program, work):
    proxy = Proxy(program, f"127.0.0.1:{free_port()}", work, is_awaited=False)
    assert proxy.status() == 6 and proxy.lines() == ["net fault"], proxy.lines()
    assert len(proxy.faults()) == 2 and "nobody answers there" in proxy.faults()[0], proxy.faults()


def an_address_in_use_is_a_net_fault(program, work):
    etcd = Etcd(work)
    try:
        with socket.socket() as taken:
            taken.bind(("127.0.0.1", 0))
            taken.listen()
            proxy = Proxy(program, etcd.address, work, port=taken.getsockname()[1], is_awaited=False)
            assert proxy.status() == 6 and proxy.lines() == ["net fault"], proxy.lines()
            assert f"listen at {proxy.address}: something listens there already" in proxy.faults()[0], proxy.faults()
    finally:
        etcd.end()


def a_full_output_is_a_write_fault(program, work):
    etcd = Etcd(work)
    try:
        proxy = Proxy(program, etcd.address, work, is_awaited=False, out="/dev/full")
        assert proxy.status() == 5
    finally:
        etcd.end()


def words_that_are_no_command_have_the_usage(program, work):
    made = subprocess.run([program, "serve", "127.0.0.1:1", "127.0.0.1:2"], capture_output=True, text=True)
    assert made.returncode == 2 and made.stdout.startswith("usage: "), made


def an_etcd_that_stays_away_ends_it(program, work):
    with two_proxies(program, work) as (etcd, proxies):
        etcd.stop()
        for proxy in proxies:
            assert proxy.status(60) == 10, "no status 10"
            assert proxy.lines()[-1] == "feed no line", proxy.lines()
            assert len(proxy.faults()) >= 10, proxy.faults()


def a_foreign_head_ends_it(program, work):
    with two_proxies(program, work) as (etcd, proxies), kazoos(*[proxies[0].address] * 3) as (a, b, c):
        a.create("/x")
        b.get("/x", watch=lambda event: None)
        etcd.control("put", "zk/head", "nonsense")
        for proxy in proxies:
            assert proxy.status(20) == 10, "no status 10"
            assert proxy.lines()[-1] == "feed damaged 7a6b2f68656164 6e6f6e73656e7365", proxy.lines()
        assert sorted(proxies[0].lines()[1:4]) == [f"closed {it} feed" for it in (1, 2, 3)], proxies[0].lines()


def a_head_that_was_deleted_ends_it(program, work):
    with two_proxies(program, work) as (etcd, proxies), kazoos(proxies[0].address) as (a,):
        a.create("/x")
        etcd.control("del", "zk/head")
        for proxy in proxies:
            assert proxy.status(60) == 10, "no status 10"
            assert proxy.lines()[-1] == "feed no line", proxy.lines()
            assert any("cannot be understood" in it for it in proxy.faults()), proxy.faults()


def time_until_the_end(address, said):
    """How long a peer is kept that says this and nothing more, in seconds."""
    with socket.create_connection(address) as silent:
        silent.sendall(said)
        since = time.time()
        silent.settimeout(90)
        while silent.recv(4096):
            pass
        return time.time() - since


def a_client_that_says_nothing_is_let_go(program, work):
    with two_proxies(program, work) as (_etcd, proxies):
        took = time_until_the_end(("127.0.0.1", proxies[0].port), b"")
        assert 9 < took < 25, took


def a_client_that_falls_silent_is_let_go(program, work):
    # It has sent as many bytes as a connect has, but not the whole frame: no session lapses before its patience does.
    with two_proxies(program, work) as (_etcd, proxies):
        took = time_until_the_end(("127.0.0.1", proxies[0].port), bytes.fromhex("000000ff") + bytes(36))
        assert 55 < took < 80, took


def a_client_of_another_protocol_is_let_go(program, work):
    with two_proxies(program, work) as (_etcd, proxies):
        with socket.create_connection(("127.0.0.1", proxies[0].port)) as other:
            other.sendall(b"GET / HTTP/1.1\r\n\r\n")
            other.settimeout(10)
            assert other.recv(1) == b""
        with kazoos(proxies[0].address):
            assert until(lambda: "closed 1 length 0 1195725856" in proxies[0].lines()), proxies[0].lines()


def the_257th_client_waits(program, work):
    with two_proxies(program, work) as (_etcd, proxies):
        clients = [KazooClient(hosts=proxies[0].address, timeout=40.0) for _ in range(256)]
        try:
            for it in clients:
                it.start(30)
            late = socket.create_connection(("127.0.0.1", proxies[0].port))
            late.sendall(bytes.fromhex("0000002d" + "00000000" + "00" * 8 + "00007530" + "00" * 8 + "00000010" + "00" * 16 + "00"))
            late.settimeout(1.0)
            try:
                assert late.recv(1) == b"", "it is served"
            except socket.timeout:
                pass
            clients[0].stop()
            late.settimeout(10)
            assert len(late.recv(4)) == 4, "it is never served"
            late.close()
        finally:
            for it in clients:
                it.stop()
                it.close()


checks = [it_ends_after_its_limit, no_etcd_is_a_net_fault, an_address_in_use_is_a_net_fault, a_full_output_is_a_write_fault,
          words_that_are_no_command_have_the_usage, an_etcd_that_stays_away_ends_it, a_foreign_head_ends_it,
          a_head_that_was_deleted_ends_it, a_client_that_says_nothing_is_let_go, a_client_that_falls_silent_is_let_go,
          a_client_of_another_protocol_is_let_go, the_257th_client_waits]
