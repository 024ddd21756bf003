SET optimizer_trace = 'enabled=on';
SELECT id, day, note FROM orders WHERE customer = 3 AND cents >= 2000;
