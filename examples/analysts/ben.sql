-- Ben looks at a week within these days, and then at all of them.
SELECT item, amount FROM sales WHERE day BETWEEN DATE '2024-03-02' AND DATE '2024-03-08' ORDER BY amount DESC;
SELECT COUNT(*), SUM(amount) FROM sales WHERE day BETWEEN DATE '2024-03-01' AND DATE '2024-03-10';
