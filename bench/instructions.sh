#!/usr/bin/env bash
# How many instructions `zetcd serve` executes for a request, over a real etcd on the loopback: a getData, a setData, a create with its
# delete, a create of an ephemeral node, a sequence create, a multi, a connect with its close, a ping, and a notice to one watcher. Each is
# the difference between two runs of one connection under Valgrind's callgrind, of COUNT and of 5 COUNT requests, by 4 COUNT. Only the
# program's own code is counted, not the kernel's. Other work of the machine changes the figures by a few percent at most, since only the
# threads that wait meanwhile do more the longer a request takes. Takes two to six minutes; asserts nothing.
#
#     bench/instructions.sh [--install] [COUNT] [WHAT..]      100 by default. ZETCD=PROGRAM: another program than the one that `./run` builds
set -eu
here=$(cd "$(dirname "$0")/.." && pwd)
packages="etcd-server:etcd valgrind:valgrind"
. "$here/bench/needs.sh"
. "$here/bench/program.sh"
work=$(mktemp -d /dev/shm/zetcd-bench.XXXXXX)
. "$here/bench/group.sh"
in_group /usr/bin/python3 "$here/bench/clients/instructions.py" "$program" "$work" "${@:-100}"
