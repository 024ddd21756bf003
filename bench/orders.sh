#!/usr/bin/env bash
# Times whole runs over generated orders, beside sqlite3 with the same rows, indexes and statements where that is installed: a condition on both
# parts of a key, and a range of days. Then 40,000 ranges, with and without dives, over rows and over none, which shows the share of planning.
# Seconds and peak memory of each. Usage: bench/orders.sh [ROWS..]
set -eu
top=$(cd "$(dirname "$0")/.." && pwd)
work=$top/bench/work
program=$top/crates/yogfrid/out/yogfrid
mkdir -p "$work"
if [ ! -x "$program" ]; then
  echo 'build the proved program first: (cd crates/yogfrid && rt run)' >&2
  exit 1
fi
[ $# -gt 0 ] || set -- 100000 1000000
cd "$work"
cat > orders.sql <<'SQL'
CREATE TABLE orders (id int NOT NULL, customer int unsigned NOT NULL, day int DEFAULT NULL, state varchar(12) NOT NULL DEFAULT 'new',
  amount bigint NOT NULL, PRIMARY KEY (id), KEY cd (customer, day), KEY st (state)) DEFAULT CHARSET=utf8mb4 COLLATE=utf8mb4_0900_bin
SQL
cat > both.sql <<'SQL'
SELECT id, day, amount FROM orders WHERE customer IN (3, 10) AND day BETWEEN 20240103 AND 20240104 ORDER BY day DESC, id
SQL
cat > days.sql <<'SQL'
SELECT id, amount FROM orders WHERE day BETWEEN 20240110 AND 20240115 ORDER BY id
SQL
cat > lite.sql <<'SQL'
CREATE TABLE orders (id INTEGER PRIMARY KEY, customer INT NOT NULL, day INT, state TEXT NOT NULL, amount INT NOT NULL);
SQL

# Rows as they are generated: their number.
make_rows() {
  python3 - "$1" <<'MAKE'
import sys
states = ['new', 'paid', 'sent', 'done']
with open('orders.csv', 'w') as out:
    out.write('id,customer,day,state,amount\n')
    out.writelines('%d,%d,%d,%s,%d\n' % (i, 7 * i % 100, 20240101 + i // 200, states[i % 4], i * i % 1000) for i in range(1, int(sys.argv[1]) + 1))
MAKE
}

# One statement in both: its name.
both_programs() {
  /usr/bin/env time -f "  $1, yogfrid: %e s, %U user, %M KB" "$program" select orders.sql orders.csv "$1.sql" > yogfrid.txt
  command -v sqlite3 > /dev/null || return 0
  /usr/bin/env time -f "  $1, sqlite3: %e s, %U user, %M KB" sqlite3 :memory: -cmd "$(cat lite.sql)" -cmd '.mode csv' \
    -cmd '.import --skip 1 orders.csv orders' -cmd 'CREATE INDEX cd ON orders (customer, day)' -cmd 'CREATE INDEX st ON orders (state)' \
    -cmd '.mode tabs' "$(cat "$1.sql")" > sqlite.txt
  head -n -1 yogfrid.txt | cmp - sqlite.txt && echo '  the rows agree'
}

for rows in "$@"; do
  make_rows "$rows"
  echo "$rows orders, $(stat -c %s orders.csv) bytes"
  both_programs both
  both_programs days
done

python3 - <<'MAKE'
values = ', '.join(str(2 * n) for n in range(200))
select = 'SELECT COUNT(*) FROM t WHERE a IN (%s) AND b IN (%s)' % (values, values)
open('pairs.sql', 'w').write('CREATE TABLE t (a int NOT NULL, b int NOT NULL, KEY ab (a, b))')
open('dives.sql', 'w').write("SET eq_range_index_dive_limit = 0, range_optimizer_max_mem_size = 0; " + select)
open('numbers.sql', 'w').write('SET range_optimizer_max_mem_size = 0; ' + select)
open('none.csv', 'w').write('a,b\n')
with open('pairs.csv', 'w') as out:
    out.write('a,b\n')
    out.writelines('%d,%d\n' % (i % 400, i // 400 % 400) for i in range(160000))
MAKE
echo '40,000 ranges'
for data in pairs none; do
  for script in dives numbers; do
    /usr/bin/env time -f "  $script, $data: %e s, %U user, %M KB" "$program" select pairs.sql $data.csv $script.sql
  done
done
