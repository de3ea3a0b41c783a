-- A pool over the time of a run: results come, are found again, follow an INSERT, and leave with an UPDATE.
CREATE TABLE visits (day INT, page TEXT, seconds INT);
INSERT INTO visits VALUES
  (1, 'home', 12), (1, 'shop', 140), (2, 'home', 9), (2, 'help', 60), (3, 'shop', 75), (4, 'home', 20),
  (5, 'help', 31), (6, 'shop', 210), (7, 'home', 14), (8, 'shop', 95), (9, 'help', 42), (10, 'home', 11);
SELECT COUNT(*), SUM(seconds) FROM visits WHERE day BETWEEN 1 AND 7;
SELECT page, SUM(seconds) FROM visits WHERE day BETWEEN 1 AND 7 GROUP BY page;
SELECT COUNT(*), SUM(seconds) FROM visits WHERE day BETWEEN 2 AND 5;
SELECT COUNT(*), SUM(seconds) FROM visits WHERE day BETWEEN 6 AND 10;
SELECT COUNT(*), SUM(seconds) FROM visits WHERE day BETWEEN 1 AND 10;
INSERT INTO visits VALUES (11, 'shop', 130), (5, 'home', 17);
SELECT COUNT(*), SUM(seconds) FROM visits WHERE day BETWEEN 1 AND 7;
SELECT page, SUM(seconds) FROM visits WHERE day BETWEEN 1 AND 7 GROUP BY page;
UPDATE visits SET seconds = seconds + 1 WHERE page = 'help';
SELECT COUNT(*), SUM(seconds) FROM visits WHERE day BETWEEN 1 AND 7;
SELECT page, SUM(seconds) FROM visits WHERE day BETWEEN 1 AND 7 GROUP BY page;
SELECT COUNT(*), SUM(seconds) FROM visits WHERE day BETWEEN 3 AND 9;
