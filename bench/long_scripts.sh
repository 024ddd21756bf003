#!/usr/bin/env bash
# Times scripts of growing length, up to the limit of 1,048,576 bytes, over a table without rows: seconds and peak memory of one
# SELECT with tests joined by AND, of one with tests joined by OR, and of many short statements. The time is that of reading, and
# grows in line with the bytes. Usage: bench/long_scripts.sh
set -eu
top=$(cd "$(dirname "$0")/.." && pwd)
program=$top/crates/yogfrid/out/yogfrid
work=$(mktemp -d)
trap 'rm -rf "$work"' EXIT
[ -x "$program" ] || { echo "build the proved program first: (cd crates/yogfrid && rt run)" >&2; exit 1; }
cd "$work"
printf 'CREATE TABLE t (a int, KEY a (a))\n' > one.sql
printf 'a\n' > none.csv
for shape in and or statements; do
  for bytes in 131072 262144 524288 1048576; do
    python3 - "$shape" "$bytes" > many.sql <<'MAKE'
import sys
shape, bytes = sys.argv[1], int(sys.argv[2])
first, next = {'and': ('SELECT a FROM t WHERE a>1', ' AND a>1'), 'or': ('SELECT a FROM t WHERE a=12345678', ' OR a=12345678'),
               'statements': ('SELECT a FROM t', '; SELECT a, a FROM t WHERE a BETWEEN 10 AND 20 OR a=5')}[shape]
text = first + next * ((bytes - len(first)) // len(next))
sys.stdout.write(text + ' ' * (bytes - len(text)))
MAKE
    /usr/bin/env time -f "$shape, $bytes bytes: %e s, %M KB" "$program" select one.sql none.csv many.sql > /dev/null
  done
done
