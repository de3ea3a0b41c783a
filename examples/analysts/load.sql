CREATE TABLE sales (day DATE NOT NULL, shop INT NOT NULL, item TEXT, amount INT NOT NULL);
INSERT INTO sales VALUES
  (DATE '2024-03-01', 1, 'lamp', 40), (DATE '2024-03-01', 2, 'chair', 120), (DATE '2024-03-02', 1, 'desk', 310),
  (DATE '2024-03-04', 3, 'lamp', 38), (DATE '2024-03-05', 2, 'shelf', 95), (DATE '2024-03-07', 1, 'chair', 115),
  (DATE '2024-03-09', 3, 'desk', 290), (DATE '2024-03-10', 2, 'lamp', 42), (DATE '2024-03-12', 1, 'shelf', 99);
