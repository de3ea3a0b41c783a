-- Orders of a small shop. Money is in cents.
CREATE TABLE orders (id BIGINT NOT NULL, customer TEXT, placed DATE, code VARCHAR(4));
CREATE TABLE lines (order_id INT, amount INT, price INT);
INSERT INTO orders VALUES (1, 'Ann', DATE '2024-05-01', 'a-1'), (2, 'Bob', DATE '2024-05-03', 'b-1');
INSERT INTO orders (code, placed, customer, id) VALUES ('a-2', DATE '2024-06-10', 'Ann', 3);
INSERT INTO lines VALUES (1, 2, 250), (1, 1, 1999), (2, 10, 99), (3, 1, 500);

SELECT * FROM orders;
SELECT id FROM orders WHERE placed >= DATE '2024-05-02' AND NOT customer = 'Ann';
SELECT amount, amount * price AS total FROM lines ORDER BY total DESC LIMIT 2;
SELECT o.customer, SUM(l.amount * l.price) AS spent, COUNT(*)
  FROM orders o JOIN lines l ON o.id = l.order_id
  GROUP BY o.customer HAVING COUNT(*) >= 1 ORDER BY spent DESC;
SELECT DISTINCT customer FROM orders WHERE id BETWEEN 1 AND 3 AND code IN ('a-1', 'a-2', 'b-9');
SELECT COUNT(customer), MIN(placed), MAX(code), SUM(id) FROM orders WHERE id > 9;

UPDATE lines SET amount = amount + 1, price = price - 1 WHERE order_id = 2;
DELETE FROM lines WHERE amount < 2;
SELECT order_id, amount, price FROM lines;
DROP TABLE lines;
