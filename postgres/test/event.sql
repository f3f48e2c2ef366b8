\set z random_zipfian(1, :customers, 1.1)
\set c 1 + permute(:z - 1, :customers, 7)
INSERT INTO events (customer, status, payload) VALUES (:c, 0, repeat('y', 200));
