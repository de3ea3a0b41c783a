CREATE TABLE sales (shop TEXT, day DATE, amount INT);
INSERT INTO sales VALUES ('north', DATE '2026-01-02', 30), ('south', DATE '2026-01-02', 12), ('north', DATE '2026-01-03', 5);
EXPLAIN SELECT shop, SUM(amount) FROM sales WHERE amount BETWEEN 5 + 5 AND 100 GROUP BY shop;
SELECT shop, SUM(amount) FROM sales WHERE amount BETWEEN 5 + 5 AND 100 GROUP BY shop;
