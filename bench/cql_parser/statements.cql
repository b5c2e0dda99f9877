CREATE KEYSPACE shop WITH REPLICATION = {'class': 'SimpleStrategy', 'replication_factor': 3};
CREATE TABLE shop.orders (customer uuid, placed timeuuid, total bigint, note text, paid boolean, PRIMARY KEY (customer, placed)) WITH CLUSTERING ORDER BY (placed DESC) AND gc_grace_seconds = 86400;
USE shop;
INSERT INTO orders (customer, placed, total, note, paid) VALUES (123e4567-e89b-12d3-a456-426614174000, ?, 1999, 'gift: it''s a book', false) USING TIMESTAMP 1700000000000000;
INSERT INTO sessions (id, opened) VALUES (0x00ffab12, 1700000000) IF NOT EXISTS
UPDATE orders USING TIMESTAMP ? SET paid = true, note = null WHERE customer = ? AND placed = ?;
UPDATE accounts SET balance = 70 WHERE owner = 'ann' IF balance = 100 AND version <= 5
DELETE note FROM orders WHERE customer = :customer AND placed = :placed
DELETE FROM events WHERE sensor = 17 AND at >= 1000 AND at < 2000
SELECT * FROM orders WHERE customer = 123e4567-e89b-12d3-a456-426614174000
SELECT placed, total, "Note" FROM shop.orders WHERE customer = ? AND placed > ? AND placed <= ? ORDER BY placed ASC LIMIT 50;
SELECT COUNT(*) FROM events WHERE sensor = 17 /* one sensor */
BEGIN UNLOGGED BATCH INSERT INTO a (k, v) VALUES (1, 'x'); UPDATE a SET v = 'y' WHERE k = 1; DELETE FROM a WHERE k = 2; APPLY BATCH;
