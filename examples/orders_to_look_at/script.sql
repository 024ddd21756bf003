-- What two customers ordered in the first week, and whatever has no note or asks for a call.
SELECT id, customer, day, note
FROM orders
WHERE customer IN (3, 7) AND day BETWEEN 20240101 AND 20240107
   OR note IS NULL
   OR note LIKE '%call%';

-- The same customers' orders that are dear, with a trace.
SET optimizer_trace = 'enabled=on';
SELECT * FROM orders WHERE (customer = 3 OR customer = 7) AND NOT cents < 2000;
