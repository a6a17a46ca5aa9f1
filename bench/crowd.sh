#!/usr/bin/env bash
# What crowds of clients cost: many of them at once under one parent, at one lock, in one storm, beside many watchers. Each scene is
# played by `zetcd serve` over a real etcd on the loopback, and beside that by ZooKeeper; what etcd was asked is counted by etcd. Data lie
# in memory, so that no disk is measured. Prints a line for each figure, with what was wanted if it misses that, and ends with status 0 if
# none does and with status 1 otherwise. Takes about six minutes; with words, only the scenes that they name:
#
#     creates   10 to 200 clients make a sequence node each under one parent at once, over 1, 2 and 3 proxies
#     freeze    200 clients make 3 such nodes each, and etcd stands still for 3 seconds in the middle
#     locks     200 clients take one lock again and again for 20 seconds
#     storm     100 sessions make 40 ephemeral nodes each under one node
#     counter   50 clients make one counter larger by one each
#     closes    40 sessions with 3 nodes each under one parent close at once
#     watchers  the proxy's processor time for a setData beside 0, 60 and 230 watchers of other nodes
#     silent    200 watchers that say nothing, while their proxy is stopped and another one serves 8,000 updates
#
# A client pings, and gives its proxy up, when ZooKeeper's own clients do: `cut` counts those that were closed or had to give up.
#
#     bench/crowd.sh [--install] [SCENE..]          ZETCD=PROGRAM: another program than the one that `./run` builds
set -eu
here=$(cd "$(dirname "$0")/.." && pwd)
packages="etcd-server:etcd zookeeper default-jre-headless:java"
. "$here/bench/needs.sh"
. "$here/bench/program.sh"

work=$(mktemp -d /dev/shm/zetcd-crowd.XXXXXX)
. "$here/bench/group.sh"
export PYTHONDONTWRITEBYTECODE=1 PYTHONPATH="$here/bench/clients:$here/bench/hostile"
in_group python3 "$here/bench/crowd/run.py" "$program" "$work" "$@"
