#!/usr/bin/env bash
# How fast `zetcd serve` is over a real etcd on the loopback: requests a second, with the median and the 99th percentile in
# microseconds, at 1, 16 and 128 connections, beside the rate at which etcd's own JSON gateway answers the same asks of a plain client,
# and beside ZooKeeper; the processor time of the proxy and of etcd for a request, and the proxy's context switches. Then how soon
# watchers are told, the memory of a connection, and the processor time of idle ones. Data lie in memory, so that no disk is measured.
# Takes about four minutes; asserts nothing.
#
#     bench/serve.sh [--install] [SECONDS]          of each measurement, 3 by default. ZETCD=PROGRAM: another program than the one that `./run` builds
set -eu
here=$(cd "$(dirname "$0")/.." && pwd)
packages="etcd-server:etcd zookeeper default-jre-headless:java gcc libc6-dev"
. "$here/bench/needs.sh"
. "$here/bench/program.sh"
work=$(mktemp -d /dev/shm/zetcd-bench.XXXXXX)
. "$here/bench/group.sh"
gcc -O2 -o "$work/load" "$here/bench/clients/load.c" -lpthread
in_group /usr/bin/python3 "$here/bench/clients/speed.py" "$program" "$work" "${1:-3}"
