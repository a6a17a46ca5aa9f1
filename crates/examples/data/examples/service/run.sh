#!/usr/bin/env bash
# A whole service on one machine: three members of etcd, two proxies, and two candidates of a leader election in Python. The leader's
# proxy is killed, and the leader goes on over the other one; then the leader itself is killed, and the other candidate leads. Says each
# step, ends all that it started, and removes its data. Status 0 if all went so.
#
#     examples/service/run.sh      ZETCD=PROGRAM: this zetcd, instead of one that is built without a proof (some minutes, once)
#                                  PORT=N: the ports N to N + 7 of the loopback, instead of 23790 to 23797
#
# Needs etcd, and Python 3 with kazoo (Debian: etcd-server, python3-kazoo).
set -eu
here=$(cd "$(dirname "$0")" && pwd -P)
port=${PORT:-23790}

command -v etcd >/dev/null || { echo "run.sh: there is no etcd on the path (Debian: etcd-server)" >&2; exit 2; }
for python in python3 /usr/bin/python3 none; do
  "$python" -c 'import kazoo' 2>/dev/null && break
done
[ "$python" != none ] || { echo "run.sh: there is no Python 3 with kazoo (Debian: python3-kazoo)" >&2; exit 2; }
zetcd=${ZETCD:-$("$here/../../../../../tools/native" zetcd)}

work=$(mktemp -d)
started=
end() {
  kill -KILL "$@" 2>/dev/null || true
  wait "$@" 2>/dev/null || true
}
finish() {
  trap - EXIT INT TERM HUP
  # shellcheck disable=SC2086
  [ -z "$started" ] || end $started
  rm -rf "$work"
}
trap finish EXIT
trap 'finish; exit 130' INT TERM HUP

# start NAME COMMAND..: runs it in the background. What it says is in NAME.log, and its process is $last.
start() {
  local name=$1
  shift
  : >"$work/$name.log"
  "$@" >"$work/$name.log" 2>&1 &
  last=$!
  started="$started $last"
}

# await NAME WORDS: until a line of NAME's has these words, for half a minute at most.
await() {
  for _ in $(seq 300); do
    if grep -q "$2" "$work/$1.log"; then return; fi
    sleep 0.1
  done
  echo "run.sh: $1 does not say '$2', but:" >&2
  tail -n 5 "$work/$1.log" >&2
  exit 1
}

members=
endpoints=
for n in 0 1 2; do
  members=$members${members:+,}m$n=http://127.0.0.1:$((port + 3 + n))
  endpoints=$endpoints${endpoints:+,}127.0.0.1:$((port + n))
done
for n in 0 1 2; do
  start "etcd-$n" etcd --name "m$n" --data-dir "$work/m$n" --initial-cluster "$members" --initial-cluster-token example \
    --listen-client-urls "http://127.0.0.1:$((port + n))" --advertise-client-urls "http://127.0.0.1:$((port + n))" \
    --listen-peer-urls "http://127.0.0.1:$((port + 3 + n))" --initial-advertise-peer-urls "http://127.0.0.1:$((port + 3 + n))" \
    --auto-compaction-mode periodic --auto-compaction-retention 1h
done
for n in 0 1 2; do await "etcd-$n" "ready to serve client requests"; done
echo "three members of etcd serve at $endpoints"

one=127.0.0.1:$((port + 6))
two=127.0.0.1:$((port + 7))
start proxy-1 "$zetcd" serve "$one" "$endpoints" 4294967295
first_proxy=$last
start proxy-2 "$zetcd" serve "$two" "$endpoints" 4294967295
await proxy-1 "listening $one"
await proxy-2 "listening $two"
echo "two proxies listen at $one and $two"

# Each candidate knows both proxies. The first one begins at the proxy that is going to be killed.
start ann "$python" "$here/election.py" "$one,$two" ann
ann=$last
await ann "ann leads"
start bob "$python" "$here/election.py" "$two,$one" bob
await bob "bob is connected"
echo "ann leads, and bob stands behind her"

end "$first_proxy"
await ann "ann is suspended"
echo "her proxy is killed"
for _ in $(seq 300); do
  [ "$(grep -c 'ann is connected' "$work/ann.log")" -eq 2 ] && break
  sleep 0.1
done
sleep 7
if [ "$(grep -c 'ann is connected' "$work/ann.log")" -ne 2 ] || grep -q "ann leads no longer" "$work/ann.log" || grep -q "bob leads" "$work/bob.log"; then
  echo "run.sh: ann does not go on as the leader" >&2
  exit 1
fi
echo "she is connected to the other proxy, in the same session, and leads on, longer than a session lasts in silence"

end "$ann"
echo "ann is killed"
await bob "bob leads"
echo "bob leads, since her session has lapsed"
