# Sourced at the head of a script that needs programs of others, once `packages` names their packages in Debian: PACKAGE, or
# PACKAGE:COMMAND if any program of that name on the path will do. If some are missing, this names them and ends with status 2. If the
# script's first word is --install, it takes that word and installs them, as root.
missing=
for package in $packages; do
  case $package in
    *:*) command -v "${package#*:}" >/dev/null || missing="$missing ${package%:*}" ;;
    *) dpkg -s "$package" >/dev/null 2>&1 || missing="$missing $package" ;;
  esac
done
if [ "${1:-}" = --install ]; then
  shift
  if [ -n "$missing" ]; then
    apt-get update -qq
    # shellcheck disable=SC2086
    DEBIAN_FRONTEND=noninteractive apt-get install -y -qq --no-install-recommends $missing >/dev/null
  fi
elif [ -n "$missing" ]; then
  echo "${0##*/}: missing:$missing (Debian's packages; --install as the first word has them installed, as root)" >&2
  exit 2
fi
