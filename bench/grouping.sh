#!/usr/bin/env bash
# Times GROUP BY of 1,000 groups with COUNT, SUM, MIN and ORDER BY over a large CSV file, beside sqlite3 where that is installed: seconds and
# peak memory of each, end to end.
# Usage: bench/grouping.sh [ROWS]
set -eu
top=$(cd "$(dirname "$0")/.." && pwd)
rows=${1:-1000000}
work=$top/bench/work
program=$top/crates/yogfrid/out/yogfrid
mkdir -p "$work"
if [ ! -x "$program" ]; then
  echo 'build the proved program first: (cd crates/yogfrid && rt run)' >&2
  exit 1
fi
cd "$work"
python3 - "$rows" <<'MAKE'
import random, sys
rows = int(sys.argv[1])
draw = random.Random(11)
with open('groups.csv', 'w') as out:
    out.write('g,v,w\n')
    out.writelines('%d,%d,%d\n' % (draw.randrange(1000), draw.randrange(-10**6, 10**6), draw.randrange(10**7)) for i in range(rows))
open('groups.columns', 'w').write(', '.join('%s int NOT NULL' % name for name in 'gvw'))
open('groups.sql', 'w').write('SELECT g, COUNT(*), SUM(v), MIN(w) FROM t GROUP BY g ORDER BY g')
MAKE
echo "$rows rows, $(stat -c %s groups.csv) bytes, 1,000 groups"
echo "CREATE TABLE t ($(cat groups.columns))" > schema.sql
/usr/bin/env time -f '  yogfrid: %e s, %U user, %M KB' "$program" select schema.sql groups.csv groups.sql > yogfrid.txt
if command -v sqlite3 > /dev/null; then
  /usr/bin/env time -f '  sqlite3: %e s, %U user, %M KB' sqlite3 :memory: -cmd "CREATE TABLE t ($(cat groups.columns))" \
    -cmd '.mode csv' -cmd '.import --skip 1 groups.csv t' -cmd '.mode tabs' "$(cat groups.sql)" > sqlite.txt
  head -n -1 yogfrid.txt | cmp - sqlite.txt && echo '  the rows agree'
fi
