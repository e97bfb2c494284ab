# What tests in bash begin with: `top`, the checkout; `within`, a new folder that goes at the end; the built programs `taxi` and
# `hiring_log`; and counts of what was tried and what was off.
top=$(cd "$(dirname "${BASH_SOURCE[0]}")/../.." && pwd -P) || exit 2
within=$(mktemp -d) || exit 2
trap 'rm -rf "$within"' EXIT
taxi=${TAXI_PROGRAM:-$top/crates/taxi_cli/out/taxi_cli} hiring_log=${LOG_PROGRAM:-$top/crates/hiring_log/out/hiring_log} test=${0##*/} failures=0 tried=0
fail() { echo "$test: $1"; failures=$((failures + 1)); }
leave_out() { echo "$test: $1" | tee -a "${LEFT_OUT:-/dev/null}"; }
# The last line of a test, and its status.
tell() { echo "$test: $1, $failures findings"; [ "$failures" -eq 0 ]; }
