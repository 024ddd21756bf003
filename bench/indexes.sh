#!/usr/bin/env bash
# Times ten indexes over rows of two integers and a text that are never the same, an integer of a thousand and a text of five thousand,
# beside the same CREATE INDEX statements of sqlite3 where that is installed, and a million seeks over 1,000, 31,000 and 1,000,000 rows:
# seconds, and the peak memory of the whole program, rows included. Usage: bench/indexes.sh [ROWS]
set -eu
top=$(cd "$(dirname "$0")/.." && pwd)
rows=${1:-1000000}
program=$top/crates/index_bench/out/index_bench
scratch=$(mktemp -d)
trap 'rm -rf "$scratch"' EXIT
if [ ! -x "$program" ]; then
  echo 'build the proved program first: (cd crates/index_bench && rt run -- build 1000)' >&2
  exit 1
fi
echo "$rows rows"
/usr/bin/env time -f '  index_bench: %M KB' "$program" build "$rows" > "$scratch/yogfrid.txt"
if command -v sqlite3 > /dev/null; then
  cat > "$scratch/script.sql" <<SQL
CREATE TABLE t (a int NOT NULL, b int NOT NULL, c int NOT NULL, s varchar(20) NOT NULL, u varchar(20) NOT NULL);
INSERT INTO t SELECT value * 618034 % 1000003, c % 1000, c, 'name ' || c, 'group ' || (c % 5003)
  FROM (SELECT value, value * 2654435761 % 2147483647 AS c FROM generate_series(0, $rows - 1));
.timer on
CREATE UNIQUE INDEX k0 ON t (a);
CREATE INDEX k1 ON t (b);
CREATE INDEX k2 ON t (c);
CREATE UNIQUE INDEX k3 ON t (s);
CREATE INDEX k4 ON t (u);
CREATE INDEX k5 ON t (b, c, a);
CREATE UNIQUE INDEX k6 ON t (c, b, a);
CREATE INDEX k7 ON t (u, s, b);
CREATE UNIQUE INDEX k8 ON t (u, b, s);
CREATE INDEX k9 ON t (b, u, c);
.timer off
.output $scratch/sqlite.txt
SQL
  for keys in 'k0 a' 'k1 b' 'k2 c' 'k3 s' 'k4 u' 'k5 b,c,a' 'k6 c,b,a' 'k7 u,s,b' 'k8 u,b,s' 'k9 b,u,c'; do
    set -- $keys
    echo "SELECT rowid - 1 FROM t INDEXED BY $1 ORDER BY $2, rowid LIMIT 1 OFFSET $rows / 2;" >> "$scratch/script.sql"
  done
  /usr/bin/env time -f '  sqlite3: %M KB' sqlite3 :memory: < "$scratch/script.sql" > "$scratch/told.txt"
  awk '/^Run Time/ { sum += $4 } END { printf "  sqlite3: ten indexes: %d ms\n", sum * 1000 }' "$scratch/told.txt"
  cmp "$scratch/yogfrid.txt" "$scratch/sqlite.txt" && echo '  the entries in the middle agree'
fi
for count in 1000 31000 1000000; do
  echo "$count rows"
  "$program" seek "$count" > /dev/null
done 2>&1 | sed 's/^/  /'
