"""A candidate of a leader election: election.py HOSTS NAME. It says when it leads and when it no longer does, and ends at SIGTERM."""
import signal
import sys
import threading

from kazoo.client import KazooClient, KazooState


def main(hosts, name):
    is_over, leaves = threading.Event(), threading.Event()
    client = KazooClient(hosts=hosts, timeout=6.0, randomize_hosts=False)

    def on_state(state):
        # Suspended: nobody can say who leads until there is a connection again. A leader stops its work, and keeps its place.
        # Lost: the session and its nodes are gone, and another one may lead.
        print(f"{name} is {state.lower()}", flush=True)
        if state == KazooState.LOST:
            leaves.set()

    client.add_listener(on_state)
    client.start(30)
    election = client.Election("/example/leader", name)

    def lead():
        print(f"{name} leads", flush=True)
        # The work of a leader would be done here, for as long as `leaves` is not set.
        leaves.wait()
        print(f"{name} leads no longer", flush=True)

    def stand():
        while not is_over.is_set():
            leaves.clear()
            election.run(lead)

    signal.signal(signal.SIGTERM, lambda *_: is_over.set())
    candidate = threading.Thread(target=stand, daemon=True)
    candidate.start()
    is_over.wait()
    leaves.set()
    election.cancel()
    candidate.join(10)
    client.stop()


main(*sys.argv[1:])
