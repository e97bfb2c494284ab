# What the measurements in bash share: `program`, the built program of the crate $1, `folder`, a new one that goes at the end,
# and the least time of a call.
top=$(cd "$(dirname "${BASH_SOURCE[0]}")/.." && pwd) || exit 2
program=$top/crates/$1/out/$1
[ -x "$program" ] || { echo 'bench: build the program first, by bin/taxi or bin/hiring_log' >&2; exit 2; }
folder=$(mktemp -d) || exit 2
trap 'rm -rf "$folder"' EXIT
fail() { echo "bench: $1" >&2; exit 1; }

# Runs the program $1 times with the words behind $2, the file for what it prints; sets `micros` to the least time, and `peak`
# to the kB of memory that it took at most.
least_of() {
  local turn began ended now child output=$2 turns=$1
  shift 2
  micros='' peak=0
  for ((turn = 0; turn < turns; turn++)); do
    began=$(date +%s%N)
    "$program" "$@" >"$output" &
    child=$!
    while now=$(sed -n 's/^VmHWM:[^0-9]*\([0-9]*\).*/\1/p' "/proc/$child/status" 2>/dev/null) && [ -n "$now" ]; do
      peak=$now
    done
    wait "$child" || fail "the program failed: $*"
    ended=$(((($(date +%s%N) - began) / 1000) + 1))
    [ -n "$micros" ] && [ "$micros" -le "$ended" ] || micros=$ended
  done
}
