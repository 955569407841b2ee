# What the Perl modules Redis or Redis::Fast are used for: the port, and which of both. Each prints a line of JSON. The
# port four above wants a password.
use strict;
use warnings;
use JSON::PP;

my ($port, $which) = @ARGV;
eval "require $which; 1" or die $@;
my $it;
my $json = JSON::PP->new->canonical->allow_nonref;
$| = 1;

sub connect_to { return $which->new(server => "127.0.0.1:$port", read_timeout => 20, @_) }

sub call {
    my ($name, $does) = @_;
    return if ($ENV{CALLS_ONLY} // $name) ne $name;
    my $found = eval { $it = connect_to(); $does->() };
    $found = "ERROR $@" if $@;
    print $json->encode([$name, $found]), "\n";
}

# The error that a call is there to get.
sub fault_of {
    my ($does) = @_;
    my $found = eval { $does->() };
    return $@ ? ($@ =~ /(ERR|[A-Z]{5,})/ ? "$1, as wanted" : "an error, as wanted") : $found;
}

sub transaction {
    my @keys = @_;
    $it->multi;
    for my $key (@keys) { $it->set($key, 1); $it->incr($key); }
    return [$it->exec];
}

sub piped {
    my @found;
    my @keys = @_;
    for my $key (@keys) {
        $it->set($key, 1, sub { push @found, [@_] });
        $it->incr($key, sub { push @found, [@_] });
    }
    $it->wait_all_responses;
    return \@found;
}

sub deep_pipeline {
    my ($count, $bytes) = (0, 0);
    for my $at (1 .. 1000) {
        $it->set("deep$at", "x" x 10_000, sub { $count++ });
        $it->get("deep$at", sub { $count++; $bytes += length $_[0] });
    }
    $it->wait_all_responses;
    $it->del(map { "deep$_" } 1 .. 1000);
    return [$count, $bytes];
}

sub watch {
    my ($is_changed) = @_;
    $it->watch("{w}a");
    connect_to()->set("{w}a", "other") if $is_changed;
    $it->multi;
    $it->set("{w}a", "mine");
    my @found = eval { $it->exec };
    return [\@found, $it->get("{w}a")];
}

sub scan_all {
    my ($how, @words) = @_;
    my ($cursor, @found) = (0);
    for (1 .. 100) {
        ($cursor, my $some) = $it->$how(@{ $words[0] }, $cursor, @{ $words[1] });
        push @found, @$some;
        last if $cursor eq "0";
    }
    return \@found;
}

sub heard {
    my ($how, $name, $channel) = @_;
    my ($own, @heard) = (connect_to());
    $own->$how($name, sub { @heard = @_ });
    $it->publish($channel, "x");
    $own->wait_for_messages(2);
    return [@heard[0, 1]];
}

my $script = "return redis.call('INCRBY', KEYS[1], ARGV[1])";
call("strings", sub { [$it->set("a", 1), $it->get("a"), scalar $it->get("none"), $it->incr("a"), $it->append("a", 2), $it->strlen("a"), $it->getrange("a", 0, 0), $it->getset("a", 9), $it->setnx("a", 1), $it->incrbyfloat("a", 0.5)] });
call("expiry", sub { [$it->setex("b", 100, "2"), $it->ttl("b"), $it->persist("b"), $it->ttl("b"), $it->expire("b", 50), $it->ttl("b"), $it->set("b", 1, "EX", 9, "XX")] });
call("several keys", sub { [$it->mset("x", 1, "y", 2, "z", 3), [$it->mget("x", "y", "none")], $it->exists("x"), $it->del("x", "y", "z")] });
call("hashes", sub { [$it->hset("h", "f", 1), $it->hmset("h", "g", 2, "i", 3), [$it->hgetall("h")], [$it->hmget("h", "f", "none")], $it->hincrby("h", "f", 2), $it->hdel("h", "g"), $it->hlen("h")] });
call("lists", sub { [$it->rpush("l", 1, 2), [$it->lrange("l", 0, -1)], $it->lpop("l"), $it->llen("l"), $it->lpush("l", "z"), $it->lrem("l", 1, "z")] });
call("sets", sub { [$it->sadd("s", "m", "n"), [sort $it->smembers("s")], $it->sismember("s", "m"), $it->srem("s", "n"), $it->sadd("{s}2", "m"), [$it->sinter("s", "{s}2")]] });
call("sorted sets", sub { [$it->zadd("q", 1.5, "m", 2, "n"), [$it->zrange("q", 0, -1, "WITHSCORES")], $it->zincrby("q", 2, "m"), $it->zrevrank("q", "m"), [$it->zrangebyscore("q", 0, 3)]] });
call("streams", sub { [$it->xadd("stream", "1-1", "f", 1), $it->xadd("stream", "2-1", "f", 2), $it->xlen("stream"), [$it->xrange("stream", "-", "+")], [$it->xread("STREAMS", "stream", "1-1")]] });
call("bits, counts and places", sub { [$it->setbit("bits", 3, 1), $it->bitcount("bits"), $it->pfadd("seen", "a", "b"), $it->pfcount("seen"), $it->geoadd("geo", 13.36, 38.11, "p"), [$it->geohash("geo", "p")]] });
call("types and copies", sub { [$it->set("{k}a", 1), $it->type("{k}a"), $it->rename("{k}a", "{k}b"), $it->restore("{k}d", 0, $it->dump("{k}b")), $it->get("{k}d"), $it->object("encoding", "{k}d")] });
call("large value", sub { [$it->set("big", "x" x 5_000_000), length $it->get("big"), $it->del("big")] });
call("keys", sub { [[sort $it->keys("*")], $it->dbsize > 0, defined $it->randomkey] });
call("scan", sub { [[sort @{ scan_all("scan", [], ["COUNT", 1000]) }], [sort @{ scan_all("scan", [], ["MATCH", "s*", "TYPE", "set"]) }]] });
call("scans of one key", sub { [scan_all("hscan", ["h"], []), scan_all("sscan", ["s"], []), scan_all("zscan", ["q"], [])] });
call("pipeline", sub { piped("p1", "p2", "p3") });
call("deep pipeline", \&deep_pipeline);
call("transaction", sub { transaction("{t}1", "{t}2") });
call("transaction, several slots", sub { transaction("t1", "t2") });
call("transaction, discarded", sub { [$it->set("{t}1", "kept"), $it->multi, $it->set("{t}1", "lost"), $it->discard, $it->get("{t}1")] });
call("watch", sub { watch(0) });
call("watch, changed key", sub { watch(1) });
call("script", sub { [$it->eval($script, 1, "e", 2), $it->evalsha($it->script_load($script), 1, "e", 3)] });
call("script that is not loaded", sub { fault_of(sub { $it->evalsha("0" x 40, 1, "e") }) });
call("script without keys", sub { [$it->eval("return {1, ARGV[1]}", 0, "x")] });
call("script with keys that it does not name", sub { [$it->mset("a", 1, "b", 2, "c", 3), [$it->eval("return {redis.call('GET', 'a'), redis.call('GET', 'b'), redis.call('GET', 'c')}", 0)]] });
call("blocking pop", sub { [$it->rpush("jobs", 1), [$it->blpop("jobs", 1)], [$it->brpop("jobs", 1)], $it->rpush("jobs", 2), $it->brpoplpush("jobs", "{jobs}done", 1)] });
call("blocking pop, several slots", sub { [$it->rpush("jobs", 1), [$it->blpop("jobs", "more", 1)]] });
call("blocking read of a stream", sub { scalar $it->xread("BLOCK", 300, "STREAMS", "stream", "\$") });
call("subscribe", sub { heard("subscribe", "news", "news") });
call("subscribe to a pattern", sub { heard("psubscribe", "new*", "newer") });
call("errors of a node", sub { [$it->set("a", "x"), fault_of(sub { $it->incr("a") }), fault_of(sub { $it->hget("a", "f") }), fault_of(sub { $it->nonsense("a") }), $it->get("a")] });
call("info", sub { [$it->info->{redis_version}, $it->info("replication")->{role}] });
call("ping, time, echo", sub { [$it->ping, scalar @{ [$it->time] }, $it->echo("x")] });
call("client", sub { [$it->client_setname("me"), scalar $it->client_getname, $it->client_list =~ /name=me / ? 1 : 0] });
call("config get", sub { [$it->config_get("maxmemory-policy")] });
call("a call given up", sub { my $own = connect_to(read_timeout => 0.5); [defined fault_of(sub { $own->blpop("nothing", 2) }) ? 1 : 0, $it->set("a", 1), $it->get("a")] });
call("reconnect", sub { my $own = connect_to(reconnect => 2); [$own->set("a", 1), $own->quit, $own->get("a")] });
call("database 0", sub { [$it->select(0), $it->set("a", 1)] });
call("database 1", sub { [$it->select(1), $it->set("a", 1)] });
call("password", sub { my $own = connect_to(server => "127.0.0.1:" . ($port + 4), password => "secret"); [$own->set("a", 1), $own->get("a")] });
call("wrong password", sub { fault_of(sub { connect_to(server => "127.0.0.1:" . ($port + 4))->auth("wrong") }) });
call("flushdb", sub { [$it->flushdb, $it->dbsize] });
