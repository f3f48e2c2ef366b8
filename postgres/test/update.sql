\set r3 random_zipfian(1, :rows, :zipf)
\set a3 1 + permute(:r3 - 1, :rows, 7)
UPDATE pgbench_accounts SET abalance = abalance + 1 WHERE aid = :a3;
