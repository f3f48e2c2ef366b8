# A server without the library replays the messages as nothing at all, and the
# library without its extension costs nothing.
use strict;
use warnings;

use PostgreSQL::Test::Cluster;
use PostgreSQL::Test::Utils;
use Test::More;

my $primary = PostgreSQL::Test::Cluster->new('primary');
$primary->init(allows_streaming => 1);
$primary->append_conf('postgresql.conf', qq(
shared_preload_libraries = 'standby_prewarm'
standby_prewarm.sample_interval = 100ms
standby_prewarm.publish_interval = 200ms
standby_prewarm.full_interval = 1s
));
$primary->start;
$primary->backup('backup');

my $plain = PostgreSQL::Test::Cluster->new('plain');
$plain->init_from_backup($primary, 'backup', has_streaming => 1);
$plain->append_conf('postgresql.conf', "shared_preload_libraries = ''");
$plain->start;

$primary->safe_psql('postgres', q(
create extension standby_prewarm;
create table t as select generate_series(1, 20000) i;
));
ok( $primary->poll_query_until(
		'postgres', 'select messages_sent > 10 from pg_stat_standby_prewarm'),
	'a primary writes messages');
$primary->wait_for_catchup($plain, 'replay', $primary->lsn('insert'));
is($plain->safe_psql('postgres', 'select count(*) from t'),
	'20000', 'a standby without the library replays them');
my ($status, $out, $error) =
  $plain->psql('postgres', 'select * from pg_stat_standby_prewarm');
isnt($status, 0, 'its view is refused');
like($error, qr/must be loaded via "shared_preload_libraries"/, 'with the reason');
unlike(slurp_file($plain->logfile), qr/PANIC|TRAP|FATAL/, 'no error in its log');

$plain->stop;
$primary->stop;
done_testing();
