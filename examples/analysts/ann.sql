-- Ann looks at the first ten days.
SELECT COUNT(*), SUM(amount) FROM sales WHERE day BETWEEN DATE '2024-03-01' AND DATE '2024-03-10';
SELECT shop, SUM(amount) FROM sales WHERE day BETWEEN DATE '2024-03-01' AND DATE '2024-03-10' GROUP BY shop ORDER BY 1;
