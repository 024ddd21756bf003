#!/usr/bin/env bash
# Times a SELECT over a large CSV file, beside sqlite3 where that is installed: seconds and peak memory of each, for four columns of
# integers of which about half of the rows are kept, and for sixteen columns of one letter that are all printed.
# Usage: bench/filter_rows.sh [ROWS]
set -eu
top=$(cd "$(dirname "$0")/.." && pwd)
rows=${1:-1000000}
work=$top/bench/work
program=$top/crates/yogfrid/out/yogfrid
mkdir -p "$work"
if [ ! -x "$program" ]; then
  echo 'build the proved program first: (cd crates/yogfrid && rt run)' >&2
  exit 1
fi
cd "$work"
python3 - "$rows" <<'MAKE'
import random, sys
rows = int(sys.argv[1])
draw = random.Random(7)
with open('integers.csv', 'w') as out:
    out.write('a,b,c,d\n')
    out.writelines('%d,%d,%d,%d\n' % (i, draw.randrange(-10**8, 10**8), draw.randrange(10**7), draw.randrange(1000)) for i in range(rows))
open('integers.columns', 'w').write(', '.join('%s int NOT NULL' % name for name in 'abcd'))
open('integers.sql', 'w').write('SELECT a, c FROM t WHERE b > 0')
names = ['c%d' % i for i in range(16)]
with open('texts.csv', 'w') as out:
    out.write(','.join(names) + '\n')
    out.writelines(','.join(draw.choices('abcdefghijklmnopqrstuvwxyz', k=16)) + '\n' for i in range(rows))
open('texts.columns', 'w').write(', '.join('%s varchar(10) NOT NULL' % name for name in names))
open('texts.sql', 'w').write('SELECT * FROM t')
MAKE
for kind in integers texts; do
  echo "$kind: $rows rows, $(stat -c %s $kind.csv) bytes"
  echo "CREATE TABLE t ($(cat $kind.columns))" > schema.sql
  /usr/bin/env time -f '  yogfrid: %e s, %M KB' "$program" select schema.sql $kind.csv $kind.sql > yogfrid.txt
  if command -v sqlite3 > /dev/null; then
    /usr/bin/env time -f '  sqlite3: %e s, %M KB' sqlite3 :memory: -cmd "CREATE TABLE t ($(cat $kind.columns))" \
      -cmd '.mode csv' -cmd ".import --skip 1 $kind.csv t" -cmd '.mode tabs' "$(cat $kind.sql)" > sqlite.txt
    head -n -1 yogfrid.txt | cmp - sqlite.txt && echo '  the rows agree'
  fi
done
