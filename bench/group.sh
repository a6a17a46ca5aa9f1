# Sourced by scripts that start servers, once the folder `work` is made. However the script ends, what it started by `in_group` ends
# with it, and the folder is removed.
group=
finish() {
  trap - EXIT INT TERM HUP
  if [ -n "$group" ]; then
    kill -TERM -- "-$group" 2>/dev/null || true
    for _ in $(seq 50); do kill -0 -- "-$group" 2>/dev/null || break; sleep 0.1; done
    kill -KILL -- "-$group" 2>/dev/null || true
  fi
  rm -rf "$work"
}
trap finish EXIT
trap 'finish; exit 130' INT TERM HUP

# Runs a command, and what that starts, as one group of processes, and gives its status.
in_group() {
  set -m
  "$@" &
  group=$!
  set +m
  local status=0
  wait "$group" || status=$?
  return "$status"
}
