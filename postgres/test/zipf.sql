\set r1 random_zipfian(1, :rows, :zipf)
\set a1 1 + permute(:r1 - 1, :rows, 7)
SELECT abalance FROM pgbench_accounts WHERE aid = :a1;
