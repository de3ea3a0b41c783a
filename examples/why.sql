-- Why is a result reused, or not? A plan, and then the same question three times.
CREATE TABLE visits (day INT, seconds INT);
INSERT INTO visits VALUES (1, 12), (2, 9), (3, 75), (4, 20), (6, 210), (7, 14);
EXPLAIN SELECT SUM(seconds) FROM visits WHERE day BETWEEN 2 AND 4;
SELECT SUM(seconds) FROM visits WHERE day BETWEEN 1 AND 6;
SELECT SUM(seconds) FROM visits WHERE day BETWEEN 2 AND 4;
SELECT SUM(seconds) FROM visits WHERE day BETWEEN 2 AND 4;
UPDATE visits SET day = 5 WHERE day = 4;
SELECT SUM(seconds) FROM visits WHERE day BETWEEN 2 AND 4;
