/* postgres/standby_prewarm--1.0.sql */

-- complain if script is sourced in psql, rather than via CREATE EXTENSION
\echo Use "CREATE EXTENSION standby_prewarm" to load this file. \quit

-- What is called below is pg_catalog's, whatever the schema of the extension has.
SET LOCAL search_path TO pg_catalog, pg_temp;

CREATE FUNCTION @extschema@.standby_prewarm_status(
    OUT role text, OUT refused bigint, OUT refused_by_name jsonb, OUT loaders integer,
    OUT last_message timestamptz, OUT stats_reset timestamptz, OUT last_round timestamptz,
    OUT wanted bigint, OUT resident bigint, OUT unloadable bigint, OUT primary_known bigint,
    OUT known bigint, OUT devices bigint, OUT messages_received bigint, OUT wal_read bigint,
    OUT wal_skipped bigint, OUT pages_touched bigint, OUT rounds bigint, OUT round_us bigint,
    OUT samples bigint, OUT sample_us bigint, OUT page_references bigint, OUT messages_sent bigint,
    OUT bytes_sent bigint, OUT saves bigint, OUT save_failures bigint, OUT resets bigint,
    OUT pages_read bigint, OUT read_us bigint, OUT pages_failed bigint, OUT rankings bigint)
RETURNS record
AS 'MODULE_PATHNAME'
LANGUAGE C STRICT VOLATILE PARALLEL RESTRICTED;

CREATE FUNCTION @extschema@.standby_prewarm_reset()
RETURNS void
AS 'MODULE_PATHNAME'
LANGUAGE C STRICT VOLATILE PARALLEL UNSAFE;

CREATE VIEW @extschema@.pg_stat_standby_prewarm AS
    SELECT role, known, primary_known, wanted, resident,
           round(100.0 * resident / nullif(wanted, 0), 1) AS percent_warm,
           clock_timestamp() - last_message AS last_message_age,
           clock_timestamp() - last_round AS last_round_age,
           messages_received, refused, refused_by_name, unloadable, loaders, pages_read,
           round(read_us / 1000.0, 3) AS read_ms, pages_failed, pages_touched, rounds, rankings,
           round(round_us / 1000.0, 3) AS round_ms, samples,
           round(sample_us / 1000.0, 3) AS sample_ms, page_references, messages_sent, bytes_sent,
           wal_read, wal_skipped, devices, saves, save_failures, resets, stats_reset
    FROM @extschema@.standby_prewarm_status();

COMMENT ON COLUMN @extschema@.pg_stat_standby_prewarm.role IS
    'primary, standby, disabled where enabled is off, or none where the worker does not run';
COMMENT ON COLUMN @extschema@.pg_stat_standby_prewarm.known IS
    'pages of the history';
COMMENT ON COLUMN @extschema@.pg_stat_standby_prewarm.primary_known IS
    'of a standby: pages that its primary''s history has, as the newest message says';
COMMENT ON COLUMN @extschema@.pg_stat_standby_prewarm.wanted IS
    'pages that are to be in the buffers of a standby, or of a primary that has just started; those that the primary knows and this server does not are counted too';
COMMENT ON COLUMN @extschema@.pg_stat_standby_prewarm.resident IS
    'wanted pages that are in the buffers';
COMMENT ON COLUMN @extschema@.pg_stat_standby_prewarm.percent_warm IS
    'share of the wanted pages that are in the buffers';
COMMENT ON COLUMN @extschema@.pg_stat_standby_prewarm.last_message_age IS
    'time since the newest message was written, by this server''s clock';
COMMENT ON COLUMN @extschema@.pg_stat_standby_prewarm.last_round_age IS
    'time since the last round of loading';
COMMENT ON COLUMN @extschema@.pg_stat_standby_prewarm.messages_received IS
    'messages that were taken in, those with numbers of devices not counted';
COMMENT ON COLUMN @extschema@.pg_stat_standby_prewarm.refused IS
    'messages and calls of the library that were refused';
COMMENT ON COLUMN @extschema@.pg_stat_standby_prewarm.refused_by_name IS
    'the same by their names';
COMMENT ON COLUMN @extschema@.pg_stat_standby_prewarm.unloadable IS
    'hot pages that are left alone, and not wanted: their database or file is gone, the file is shorter or locked, or reading them failed';
COMMENT ON COLUMN @extschema@.pg_stat_standby_prewarm.loaders IS
    'loaders that run now';
COMMENT ON COLUMN @extschema@.pg_stat_standby_prewarm.pages_read IS
    'pages that loaders read into buffers';
COMMENT ON COLUMN @extschema@.pg_stat_standby_prewarm.read_ms IS
    'time for these';
COMMENT ON COLUMN @extschema@.pg_stat_standby_prewarm.pages_failed IS
    'pages whose read ended in an error';
COMMENT ON COLUMN @extschema@.pg_stat_standby_prewarm.pages_touched IS
    'times that a resident page''s usage count was raised';
COMMENT ON COLUMN @extschema@.pg_stat_standby_prewarm.rounds IS
    'rounds of loading';
COMMENT ON COLUMN @extschema@.pg_stat_standby_prewarm.rankings IS
    'rounds for which the history was ranked again, since messages had come';
COMMENT ON COLUMN @extschema@.pg_stat_standby_prewarm.round_ms IS
    'time of the last round';
COMMENT ON COLUMN @extschema@.pg_stat_standby_prewarm.samples IS
    'samples of a primary''s buffers';
COMMENT ON COLUMN @extschema@.pg_stat_standby_prewarm.sample_ms IS
    'time of the last sample';
COMMENT ON COLUMN @extschema@.pg_stat_standby_prewarm.page_references IS
    'references that samples found';
COMMENT ON COLUMN @extschema@.pg_stat_standby_prewarm.messages_sent IS
    'messages that were written into the WAL, all of them counted';
COMMENT ON COLUMN @extschema@.pg_stat_standby_prewarm.bytes_sent IS
    'their bytes';
COMMENT ON COLUMN @extschema@.pg_stat_standby_prewarm.wal_read IS
    'bytes of WAL that were looked through';
COMMENT ON COLUMN @extschema@.pg_stat_standby_prewarm.wal_skipped IS
    'bytes of WAL that were gone or unreadable';
COMMENT ON COLUMN @extschema@.pg_stat_standby_prewarm.devices IS
    'numbers of (tablespace, database, fork) that were given';
COMMENT ON COLUMN @extschema@.pg_stat_standby_prewarm.saves IS
    'times that the history was saved';
COMMENT ON COLUMN @extschema@.pg_stat_standby_prewarm.save_failures IS
    'saves that failed';
COMMENT ON COLUMN @extschema@.pg_stat_standby_prewarm.resets IS
    'times that a new history was begun';
COMMENT ON COLUMN @extschema@.pg_stat_standby_prewarm.stats_reset IS
    'since when is counted: the start of the worker';

REVOKE ALL ON FUNCTION @extschema@.standby_prewarm_status() FROM PUBLIC;
REVOKE ALL ON FUNCTION @extschema@.standby_prewarm_reset() FROM PUBLIC;
GRANT EXECUTE ON FUNCTION @extschema@.standby_prewarm_status() TO pg_monitor;
GRANT SELECT ON @extschema@.pg_stat_standby_prewarm TO pg_monitor;
