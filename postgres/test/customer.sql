\set z random_zipfian(1, :customers, 1.1)
\set c 1 + permute(:z - 1, :customers, 7)
SELECT name FROM customers WHERE id = :c;
