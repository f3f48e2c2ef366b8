# A standby takes over warm, and a primary that restarts loads what it knew.
use strict;
use warnings;

use PostgreSQL::Test::Cluster;
use PostgreSQL::Test::Utils;
use Test::More;

my $settings = qq(
shared_preload_libraries = 'standby_prewarm'
shared_buffers = 16MB
max_worker_processes = 16
standby_prewarm.sample_interval = 100ms
standby_prewarm.publish_interval = 200ms
standby_prewarm.load_interval = 200ms
standby_prewarm.full_interval = 2s
);

my $primary = PostgreSQL::Test::Cluster->new('primary');
$primary->init(allows_streaming => 1);
$primary->append_conf('postgresql.conf', $settings);
$primary->start;
$primary->safe_psql(
	'postgres', q(
create extension standby_prewarm;
create extension pg_buffercache;
create table hot as select i, repeat('x', 500) as pad from generate_series(1, 6000) i;
checkpoint;
));
is($primary->safe_psql('postgres', 'select role from pg_stat_standby_prewarm'),
	'primary', 'the worker of a primary');

$primary->backup('backup');
my $standby = PostgreSQL::Test::Cluster->new('standby');
$standby->init_from_backup($primary, 'backup', has_streaming => 1);
$standby->start;

# Whether a table of some 400 pages is in the buffers of a server.
my $is_resident = q(select count(*) >= 400 from pg_buffercache
  where relfilenode = pg_relation_filenode('hot') and relforknumber = 0);

# A page is referenced if it is used again while it is in the buffers.
ok( $primary->poll_query_until(
		'postgres',
		q(select count(*) > 0 and (select known >= 400 from pg_stat_standby_prewarm)
		  from hot)),
	'a primary knows what is read again');
ok($standby->poll_query_until('postgres', $is_resident),
	'a standby loads what its primary reads');
ok( $standby->poll_query_until(
		'postgres',
		q(select role = 'standby' and percent_warm > 97 and refused = 0
		  from pg_stat_standby_prewarm)),
	'and is warm');
is( $standby->safe_psql(
		'postgres',
		'select sum(confl_lock + confl_snapshot + confl_bufferpin)
		 from pg_stat_database_conflicts'),
	'0',
	'no recovery conflict');

$primary->stop;
$standby->promote;
is($standby->safe_psql('postgres', $is_resident),
	't', 'a standby takes over warm');
ok( $standby->poll_query_until(
		'postgres',
		q(select role = 'primary' and samples > 2 from pg_stat_standby_prewarm)),
	'its worker is a primary\'s');

$standby->restart;
ok($standby->poll_query_until('postgres', $is_resident),
	'a primary that restarts loads what it knew');
ok( $standby->poll_query_until(
		'postgres', 'select wanted is null from pg_stat_standby_prewarm'),
	'and ends with that');
unlike(slurp_file($standby->logfile), qr/PANIC|TRAP|ERROR/, 'no error');

$standby->stop;
done_testing();
