#!/usr/bin/env bash
# Tries `zetcd serve` and `zetcd etcd` with peers that mean harm: clients that read nothing, send a byte a second, frames of 1 MB on all
# connections, tens of thousands of watches, random bytes; floods of dials; and an etcd that is slow, silent, or answers with megabytes of
# garbage. A real etcd and all of these run on the loopback. Of each it checks that the memory and the processor time of the server stay
# within a bound, that another client is served meanwhile, and that the connection ends for the cause that docs/OPERATIONS.md names.
# Then: a table of descriptors that is full, and empty again; a thousand sessions that lapse; a proxy that falls behind. Prints a line
# for each check, with what was measured, and ends with status 0 if all hold. Names the Debian packages that are missing, and installs
# them if told so by `--install` (as root). It ends what it started. Takes about half an hour and some 3 GB; with words, only the parts
# (clients floods descriptors lapses behind etcds watches memory) and the checks that they name.
#
#     bench/hostile.sh [--install] [PART | CHECK]..     ZETCD=PROGRAM: another program than the one that `./run` builds
set -eu
here=$(cd "$(dirname "$0")/.." && pwd)
packages="etcd-server:etcd python3:python3"
. "$here/bench/needs.sh"
. "$here/bench/program.sh"

work=$(mktemp -d /dev/shm/zetcd-hostile.XXXXXX)
. "$here/bench/group.sh"
export PYTHONDONTWRITEBYTECODE=1 PYTHONPATH="$here/bench/clients"
in_group /usr/bin/python3 "$here/bench/hostile/run.py" "$program" "$work" "$@"
