CREATE TABLE sales (
  receipt int NOT NULL,
  line tinyint unsigned NOT NULL,
  article varchar(20) NOT NULL,
  category varchar(12) NOT NULL,
  pieces smallint NOT NULL,
  cents int unsigned NOT NULL,
  voucher varchar(8),
  PRIMARY KEY (receipt, line),
  KEY by_category (category(4), article),
  KEY by_price (cents DESC)
)
