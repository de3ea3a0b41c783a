-- Cem adds a late sale, and asks what Ann asked.
INSERT INTO sales VALUES (DATE '2024-03-08', 3, 'chair', 125);
SELECT COUNT(*), SUM(amount) FROM sales WHERE day BETWEEN DATE '2024-03-01' AND DATE '2024-03-10';
