CREATE TABLE accounts (owner TEXT, money INT);
INSERT INTO accounts VALUES ('Ann', 60), ('Ben', 40);
