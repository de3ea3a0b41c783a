-- Guests of a hotel: what isn't known yet is NULL.
CREATE TABLE guests (name TEXT NOT NULL, room INT, nights INT DEFAULT 1, arrives DATE);
INSERT INTO guests VALUES ('Ann', 12, 3, DATE '2024-05-01'), ('Bob', NULL, 2, NULL);
INSERT INTO guests (name) VALUES ('Cid');
SELECT * FROM guests;

-- NULL compares with nothing, not even with NULL.
SELECT name FROM guests WHERE room = NULL;
SELECT name FROM guests WHERE room < 20;
SELECT name FROM guests WHERE NOT room < 20;
SELECT name FROM guests WHERE room IS NULL;
SELECT name FROM guests WHERE room IS NOT NULL OR nights = 1;

-- Aggregates skip it, groups and DISTINCT hold it together, and it sorts first.
SELECT COUNT(*), COUNT(room), SUM(room), MIN(arrives) FROM guests;
SELECT SUM(nights) FROM guests WHERE nights > 9;
SELECT room, COUNT(*) FROM guests GROUP BY room;
SELECT DISTINCT arrives FROM guests;
SELECT name, room FROM guests ORDER BY room DESC, name;
SELECT COUNT(*) FROM guests GROUP BY room HAVING MAX(arrives) IS NULL;

-- A column that may not be NULL refuses it.
INSERT INTO guests VALUES (NULL, 7, 1, NULL);
UPDATE guests SET name = NULL WHERE room IS NULL;

-- A column can be added, with the value that the rows which are there get.
ALTER TABLE guests ADD COLUMN paid VARCHAR(3) DEFAULT 'no' NOT NULL;
ALTER TABLE guests ADD note TEXT;
INSERT INTO guests (name, paid) VALUES ('Dee', 'yes');
SELECT name, nights, paid, note FROM guests;
ALTER TABLE guests ADD city TEXT NOT NULL;
ALTER TABLE guests ADD floor INT DEFAULT 'two';
ALTER TABLE guests ADD tag VARCHAR(2) DEFAULT 'new';
