-- 30 go from Ann to Ben, in two statements.
UPDATE accounts SET money = money - 30 WHERE owner = 'Ann';
UPDATE accounts SET money = money + 30 WHERE owner = 'Ben';
