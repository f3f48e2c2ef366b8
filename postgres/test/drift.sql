\set r2 random_zipfian(1, :rows, :zipf)
\set a2 1 + permute(:r2 - 1, :rows, :seed2)
SELECT abalance FROM pgbench_accounts WHERE aid = :a2;
