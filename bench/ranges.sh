#!/usr/bin/env bash
# Times the ranges of conditions, by the program range_bench: a list of 200 values on each of six parts, one on each of two, and from 10,000 to
# 60,000 equalities of one part between ORs. Seconds and peak memory of each, what it tells, and for the equalities the time for each
# of n * log n, n their number: this stands still where the time grows as n * log n does. Usage: bench/ranges.sh
set -eu
top=$(cd "$(dirname "$0")/.." && pwd)
program=$top/crates/range_bench/out/range_bench
if [ ! -x "$program" ]; then
  echo 'build the proved program first: (cd crates/range_bench && rt run -- pairs)' >&2
  exit 1
fi

# Runs the program under time: its words.
timed() {
  local told
  told=$(/usr/bin/env time -f "$*: %e s, %M KB" "$program" "$@")
  echo "  $told"
}

# The same for a number of equalities, and the nanoseconds for each of n * log n.
equalities() {
  local count=$1 start end
  start=$(date +%s%N)
  timed equalities "$count"
  end=$(date +%s%N)
  awk -v n="$count" -v t=$((end - start)) 'BEGIN { printf "  %.1f ns for each of n * log n\n", t / (n * log(n) / log(2)) }'
}

timed lists 2>&1
timed pairs 2>&1
for count in 10000 20000 40000 60000; do
  equalities "$count" 2>&1
done
