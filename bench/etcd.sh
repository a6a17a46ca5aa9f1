#!/usr/bin/env bash
# Sends the same asks to a real etcd 3.4 and to `zetcd etcd`, and compares what they answer: as they stand, and as a link of this
# workspace reads them. Then counts guarded updates a second at 1, 16 and 128 connections, of both by turns. Both listen on the loopback
# and are new; the real one keeps its log in a temporary folder. Fails if an answer differs in what docs/DECISIONS.md does not list, or
# an update is not carried out. Of the speed it asserts nothing.
#
#     bench/etcd.sh [--install] [SECONDS]          for each count, 5 if left out. ZETCD=PROGRAM and LINK=PROGRAM: another zetcd, and another
#                                                  etcd_loopback, than those that are built in crates/
set -u
here=$(cd "$(dirname "$0")/.." && pwd)
packages="etcd-server:etcd curl:curl python3:python3 rustc:rustc"
. "$here/bench/needs.sh"
seconds=${1:-5}
. "$here/bench/program.sh"
link=${LINK:-$here/crates/etcd_loopback/out/etcd_loopback}
work=$(mktemp -d)
servers=()
finish() {
  for server in "${servers[@]}"; do kill "$server" 2>/dev/null; done
  wait 2>/dev/null
  rm -rf "$work"
}
trap finish EXIT

if [ ! -x "$link" ]; then
  (cd "$here/crates/etcd_loopback" && rt run) >/dev/null || exit 1
fi

free_port() { python3 -c 'import socket; s = socket.socket(); s.bind(("127.0.0.1", 0)); print(s.getsockname()[1])'; }

# Starts both anew: $real and $ours are their addresses.
start() {
  for server in "${servers[@]}"; do kill "$server" && wait "$server" 2>/dev/null; done
  servers=()
  rm -rf "$work/real"
  real=127.0.0.1:$(free_port)
  ours=127.0.0.1:$(free_port)
  local peer=127.0.0.1:$(free_port)
  etcd --name real --data-dir "$work/real" --listen-client-urls "http://$real" --advertise-client-urls "http://$real" \
    --listen-peer-urls "http://$peer" --initial-advertise-peer-urls "http://$peer" --initial-cluster "real=http://$peer" \
    --logger zap --log-outputs "$work/real.log" >/dev/null 2>&1 &
  servers+=($!)
  "$program" etcd "$ours" 1000000 >"$work/ours.out" 2>"$work/ours.err" &
  servers+=($!)
  for server in "$real" "$ours"; do
    for _ in $(seq 200); do
      curl -s -o "$work/probe" "http://$server/v3/kv/range" -d '{"key":"YQ=="}' && continue 2
      sleep 0.1
    done
    echo "etcd.sh: nobody listens at $server" >&2
    exit 1
  done
}

start
python3 "$here/bench/etcd.py" "$real" "$ours" || exit 1

start
python3 "$here/bench/etcd.py" >"$work/asks"
"$link" "$real" <"$work/asks" >"$work/theirs" && "$link" "$ours" <"$work/asks" >"$work/mine" || exit 1
if ! diff "$work/theirs" "$work/mine"; then
  echo "a link reads answers of the two that differ"
  exit 1
fi
echo "$(wc -l <"$work/mine") asks over a link to each: no answer differs"

rustc -O --edition 2021 -o "$work/load" "$here/bench/etcd.rs" || exit 1
echo "guarded updates a second, each of one key of 100 bytes, $seconds seconds each, $(nproc) processors:"
for connections in 1 16 128; do
  theirs=$("$work/load" "$real" "$connections" "$seconds") || exit 1
  mine=$("$work/load" "$ours" "$connections" "$seconds") || exit 1
  awk -v n="$connections" -v a="$theirs" -v b="$mine" 'BEGIN { printf "%4d connections: etcd %7d, zetcd etcd %7d, ratio %.1f\n", n, a, b, b / a }'
done
