# Sourced by a script that runs zetcd, once `here` is the repository: `program` is what ZETCD names, or what `tools/prove zetcd` builds.
# If there is none, this says so and ends with status 2.
program=${ZETCD:-$here/crates/zetcd/out/zetcd}
if [ ! -x "$program" ]; then
  echo "${0##*/}: no program at $program: build it by tools/prove zetcd, or name one, as by ZETCD=\$(tools/native zetcd)" >&2
  exit 2
fi
