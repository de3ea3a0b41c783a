SELECT SUM(money) FROM accounts;
