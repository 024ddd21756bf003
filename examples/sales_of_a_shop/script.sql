-- What is on receipt 4? Rows come by primary key, whatever their order in the file.
SELECT line, article, pieces, cents FROM sales WHERE receipt = 4;

-- What did each category bring, the best one first?
SELECT category, COUNT(*), SUM(cents), MIN(cents), MAX(cents) FROM sales GROUP BY category ORDER BY 3 DESC;

-- Which vouchers came in?
SELECT DISTINCT voucher FROM sales WHERE voucher IS NOT NULL ORDER BY voucher;

-- How many receipts, lines, and lines with a voucher?
SELECT COUNT(DISTINCT receipt), COUNT(*), COUNT(voucher) FROM sales;

-- Which lines were dear, the dearest first, and by name where they cost the same?
SELECT article, cents FROM sales USE INDEX (by_price) WHERE cents BETWEEN 600 AND 2000 ORDER BY cents DESC, article;

-- What is the least that a line with food or a mug cost? With a trace.
SET optimizer_trace = 'enabled=on';
SELECT MIN(cents) FROM sales WHERE category LIKE 'food%' OR article = 'mug';
