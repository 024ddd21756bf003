CREATE TABLE parcels (
  depot int,
  day int NOT NULL,
  state varchar(8) NOT NULL,
  grams int unsigned NOT NULL,
  KEY by_depot (depot, day, state)
)
