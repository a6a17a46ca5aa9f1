#!/usr/bin/env bash
# Starts an etcd in memory on the loopback, asks it by curl, and shows each ask with its answer, as in curl.answers beside this.
# Keys and values are in base64: YQ== is `a`, eA== is `x`, eQ== is `y`. The server ends by itself after six connections, one of
# which is a watch.
# usage: examples/etcd/curl.sh [PORT [PROGRAM]]    port 2379 if left out; PROGRAM: zetcd, built; `run` otherwise
set -eu
top=$(cd -P "$(dirname "$0")" && cd ../../../../.. && pwd)
server=127.0.0.1:${1:-2379}
program=${2:-$top/run}
work=$(mktemp -d)
trap 'rm -rf "$work"' EXIT

"$program" etcd "$server" 6 >"$work/server" &
until [ -s "$work/server" ]; do sleep 0.1; done
cat "$work/server"

ask() { # ask ROUTE BODY
  echo
  echo "$1 $2"
  curl -sS "http://$server$1" -d "$2"
  echo
}

ask /v3/kv/txn '{"compare":[{"key":"YQ==","mod_revision":"0","target":"MOD"}],"success":[{"request_put":{"key":"YQ==","value":"eA=="}}],"failure":[{"request_range":{"key":"YQ=="}}]}'
ask /v3/kv/range '{"key":"YQ=="}'
curl -sSN "http://$server/v3/watch" -d '{"create_request":{"key":"YQ==","start_revision":"1"}}' >"$work/watch" &
until [ "$(wc -l <"$work/watch")" -ge 2 ]; do sleep 0.1; done
ask /v3/kv/txn '{"compare":[{"key":"YQ==","mod_revision":"2","target":"MOD"}],"success":[{"request_put":{"key":"YQ==","value":"eQ=="}}]}'
ask /v3/lease/grant '{"ID":"17","TTL":"30"}'
ask /v3/lease/keepalive '{"ID":"17"}'
wait
echo
echo '/v3/watch {"create_request":{"key":"YQ==","start_revision":"1"}}'
cat "$work/watch"
