\pset format unaligned
CREATE EXTENSION standby_prewarm;
-- settings: units, ranges, contexts
SELECT name, setting, unit, context, vartype, min_val, max_val
FROM pg_settings WHERE name LIKE 'standby\_prewarm.%'
AND name NOT IN ('standby_prewarm.sample_interval', 'standby_prewarm.publish_interval',
                 'standby_prewarm.full_interval', 'standby_prewarm.load_interval',
                 'standby_prewarm.load_rate')
ORDER BY name COLLATE "C";
SELECT name, boot_val, unit FROM pg_settings
WHERE name IN ('standby_prewarm.fraction', 'standby_prewarm.load_rate') ORDER BY name;
SELECT count(*) AS settings, count(*) FILTER (WHERE context = 'sighup') AS by_sighup,
       count(*) FILTER (WHERE short_desc = '') AS without_description
FROM pg_settings WHERE name LIKE 'standby\_prewarm.%';
SET standby_prewarm.fraction = 0.5; -- error: not in a session
-- the worker is a primary's, and samples
SELECT role, samples > 0 AS samples, refused, refused_by_name, save_failures
FROM pg_stat_standby_prewarm;
-- a table that is read is known
CREATE TABLE warm (i int);
INSERT INTO warm SELECT generate_series(1, 20000);
DO $$
BEGIN
    FOR n IN 1..600 LOOP
        PERFORM count(*) FROM warm;
        PERFORM pg_sleep(0.1);
        EXIT WHEN (SELECT known > 80 FROM pg_stat_standby_prewarm);
    END LOOP;
END
$$;
SELECT known > 80 AS known, devices > 0 AS devices, wanted, percent_warm FROM pg_stat_standby_prewarm;
-- each column is described
SELECT count(*) > 30 AS columns, count(*) FILTER (WHERE col_description(attrelid, attnum) IS NULL) AS without
FROM pg_attribute WHERE attrelid = 'pg_stat_standby_prewarm'::regclass AND attnum > 0;
-- privileges: pg_monitor, and nobody else
CREATE ROLE regress_warm_nobody;
CREATE ROLE regress_warm_monitor IN ROLE pg_monitor;
SET ROLE regress_warm_nobody;
SELECT count(*) FROM pg_stat_standby_prewarm; -- error
SET ROLE regress_warm_monitor;
SELECT count(*) FROM pg_stat_standby_prewarm;
SELECT standby_prewarm_reset(); -- error
RESET ROLE;
DROP ROLE regress_warm_nobody, regress_warm_monitor;
-- what users write is no message of ours
SELECT pg_logical_emit_message(false, 'standby_prewarm', 'forged') IS NOT NULL AS written;
DROP TABLE warm;
-- the view of an extension of another version: fewer columns, or more, which are null
CREATE FUNCTION older(OUT role text, OUT refused bigint) RETURNS record
AS '$libdir/standby_prewarm', 'standby_prewarm_status' LANGUAGE C;
SELECT * FROM older();
DO $$
BEGIN
    EXECUTE format('CREATE FUNCTION newer(%s, OUT to_come bigint) RETURNS record
        AS ''$libdir/standby_prewarm'', ''standby_prewarm_status'' LANGUAGE C',
        pg_get_function_arguments('standby_prewarm_status'::regproc));
END
$$;
SELECT role, samples > 0 AS samples, to_come FROM newer();
DROP FUNCTION older, newer;
DROP EXTENSION standby_prewarm;
-- in a schema whose owner has operators of his own, which fit better
CREATE SCHEMA regress_warm;
CREATE FUNCTION regress_warm.trap(numeric, bigint) RETURNS numeric LANGUAGE plpgsql
AS 'BEGIN RAISE EXCEPTION ''an operator of another schema is called''; END';
CREATE OPERATOR regress_warm.* (LEFTARG = numeric, RIGHTARG = bigint, FUNCTION = regress_warm.trap);
CREATE OPERATOR regress_warm./ (LEFTARG = numeric, RIGHTARG = bigint, FUNCTION = regress_warm.trap);
CREATE EXTENSION standby_prewarm SCHEMA regress_warm;
SET search_path TO regress_warm, pg_catalog;
\set VERBOSITY terse
SELECT 1.0 * 2::bigint; -- error: so it would be
SELECT role, percent_warm FROM pg_stat_standby_prewarm;
RESET search_path;
DROP EXTENSION standby_prewarm;
DROP SCHEMA regress_warm CASCADE;
