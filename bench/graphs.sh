#!/usr/bin/env bash
# Times graphs of growing size, by the programs graph_cases (a case a line) and graph_bench: seconds and peak memory
# of each, and what it tells. Usage: bench/graphs.sh
set -eu
top=$(cd "$(dirname "$0")/.." && pwd)
scratch=$(mktemp -d)
trap 'rm -rf "$scratch"' EXIT

# Proves and builds a program where that isn't done: its name, and words that it is run with.
build() {
  local program=$1
  shift
  [ -x "$top/crates/$program/out/$program" ] && return
  echo "$program: proving and building the program, which can take half an hour" >&2
  (cd "$top/crates/$program" && rt run -- "$@" < /dev/null) > "$scratch/log" 2>&1 || true
  if [ ! -x "$top/crates/$program/out/$program" ]; then
    cat "$scratch/log" >&2
    echo "$program: the program could not be built" >&2
    exit 1
  fi
}

# Runs a program under time: what its line is named by, the program, its words.
timed() {
  local name=$1 program=$2
  shift 2
  local told
  told=$(/usr/bin/env time -f "$name: %e s, %M KB" "$top/crates/$program/out/$program" "$@")
  sed 's/^/  /' <<< "$told"
}

# The tests 'the first part differs from i', for i from 1 to a number, as the graphs of a case.
differing() {
  seq "$1" | sed 's/.*/0=<&,>&/' | paste -s -d '&'
}

build graph_cases none
while read -r line; do
  echo "$line" > "$scratch/case"
  timed "graph_cases" graph_cases "$scratch/case"
done <<'CASES'
n pair 0=1..125000 all ? size live
n pair 0=1..250000 all ? size live
n pair 0=1..500000 all ? size live
n pair 0=1..1000000 all ? size live
n and 0=0/1*100000+4 0=2/1*100000+4 1000000 ? size alone
n and 0=0/3*100000+4 0=2/3*100000+4 1000000 ? size alone
n and 0=0/1*100000+4 0=0/1*100000+4 1000000 ? size alone
nn and 1=1..4000 0=1..60&1=1..60 1000000 ? size alone
nn and 0=1..60&1=1..60 1=1..4000 1000000 ? size alone
nn and 1=1..4000 0=1..60 1000000 ? size alone
nn and 0=1..60 1=1..4000 1000000 ? size alone
n and 0=1..100000 0=>50000 1000000 ? size alone
n and 0=>50000 0=1..100000 1000000 ? size alone
nnnnnnn and 0=1..3&1=1..3&2=1..3&3=1..3&4=1..3&5=1..3&6=1..3 6=<2,>2 1000000 ? size items alone
nnnnnnn or 0=1..3&1=1..3&2=1..3&3=1..3&4=1..3&5=1..3&6=1..3 6=<2,>2 1000000 ? size items alone
nn or 0=1..100000 1=5 1000000 ? size alone
nn or 1=1..30 0=1..30&1=31..60 200 ? size
nn or 1=1..60 0=1..60&1=61..120 200 ? size
nn or 1=1..60 0=1..60&1=61..120 1000000 ? size alone
nn or 0=1..60&1=61..120 1=1..60 1000000 ? size alone
nn or 1=1..30000 0=1..18000&1=0 1000000 ? size
nn or 0=1..18000&1=0 1=1..30000 1000000 ? size
nn or 0=1..20000&1=1..3 0=10001..10060&1=3..5 1000000 ? size alone
nn or 0=10001..10060&1=3..5 0=1..20000&1=1..3 1000000 ? size alone
nnnnnn met 0=1..200&1=1..200&2=1..200&3=1..200&4=1..200&5=1..200 1000000 ? first
nnnnnnnn pair 0=1..2&1=1..2&2=1..2&3=1..2&4=1..2&5=1..2&6=1..2&7=1..2 all ? size live
CASES
for count in 125 250 500 1000; do
  echo "n met $(differing "$count") 1000000 ? first" > "$scratch/case"
  timed "graph_cases, $count tests that differ" graph_cases "$scratch/case" | sed 's/.* : /  /'
done

build graph_bench one 1
for count in 125000 250000 500000 1000000; do
  for way in one halves; do
    timed "graph_bench $way $count" graph_bench "$way" "$count"
  done
done
