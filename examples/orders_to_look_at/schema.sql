CREATE TABLE orders (
  id int NOT NULL,
  customer int NOT NULL,
  day int NOT NULL,
  cents int unsigned NOT NULL,
  note varchar(40),
  KEY by_customer (customer, day)
)
