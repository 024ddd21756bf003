SET optimizer_trace = 'enabled=on';

-- What came to depot 3 from 3 March on, and hasn't left? The interval ends with the part that has no fixed value.
SELECT day, state FROM parcels WHERE depot = 3 AND day >= 20240303 AND state <> 'left';

-- What came to depot 1 on the first day, and to the depots above 5 on any? Two intervals, on two parts and on one.
SELECT depot, day, state FROM parcels WHERE (depot = 1 AND day < 20240302) OR depot > 5;

-- Where is a parcel held? The third part alone has no interval, and the key has all that is asked.
SELECT depot, day FROM parcels WHERE state = 'held' ORDER BY depot, day;

-- What do parcels weigh that left depot 2 on 2 March? A point on all three parts; the weight stands in the row alone.
SELECT grams FROM parcels WHERE depot = 2 AND day = 20240302 AND state = 'left';

-- How many parcels of the depots up to 5 weigh 4500 g or more? An interval without NULL, too large for its rows to be fetched one by one.
SELECT COUNT(*) FROM parcels WHERE depot <= 5 AND grams >= 4500;
