# What the Perl module AnyEvent::Redis is used for: the port. Each prints a line of JSON. The port four above wants a
# password. Each call has a function for its reply, or a variable that is waited for.
use strict;
use warnings;
use AnyEvent;
use AnyEvent::Redis;
use JSON::PP;

my ($port) = @ARGV;
my ($it, @kept); # the library fails if a client ends while a reply is on its way
my $json = JSON::PP->new->canonical->allow_nonref;
$| = 1;

sub connect_to {
    push @kept, AnyEvent::Redis->new(host => "127.0.0.1", port => $port, on_error => sub { }, @_);
    return $kept[-1];
}

sub call {
    my ($name, $does) = @_;
    return if ($ENV{CALLS_ONLY} // $name) ne $name;
    my $found = eval { $it = connect_to(); $does->() };
    $found = "ERROR $@" if $@;
    print $json->encode([$name, $found]), "\n";
}

# Sends all commands, and then waits for their replies.
sub all {
    my @lines = @_;
    my @waits = map { my ($name, @words) = split " "; $name = lc $name; $it->$name(@words) } @lines;
    return [map { scalar $_->recv } @waits];
}

sub heard {
    my ($how, $name) = @_;
    my ($own, $done) = (connect_to(), AE::cv);
    my $late = AE::timer 5, 0, sub { $done->croak("no message") };
    $own->$how($name, sub { $done->send($_[0]) });
    my $soon = AE::timer 0.3, 0, sub { $it->publish("news", "x") };
    return $done->recv;
}

sub given_up {
    my $done = AE::cv;
    my $late = AE::timer 0.2, 0, sub { $done->send("given up") };
    my $own = connect_to();
    $own->blpop("nothing", 2, sub { $done->send("found") });
    my $found = $done->recv;
    return [$found, @{ all("SET a 1", "GET a") }];
}

call("strings", sub { all("SET a 1", "GET a", "GET none", "INCR a", "APPEND a 2", "STRLEN a", "GETSET a 9", "SETNX a 1") });
call("expiry", sub { all("SETEX b 100 2", "TTL b", "PERSIST b", "TTL b") });
call("several keys", sub { all("MSET x 1 y 2", "MGET x y none", "EXISTS x y", "DEL x y") });
call("hashes", sub { all("HSET h f 1", "HGETALL h", "HMGET h f none", "HINCRBY h f 2") });
call("lists", sub { all("RPUSH l 1 2", "LRANGE l 0 -1", "LPOP l") });
call("sets", sub { all("SADD s m", "SMEMBERS s", "SISMEMBER s m") });
call("sorted sets", sub { all("ZADD q 1.5 m", "ZRANGE q 0 -1 WITHSCORES", "ZINCRBY q 2 m") });
call("keys", sub { [sort @{ $it->keys("*")->recv }] });
call("scan", sub { all("SCAN 0 COUNT 1")->[0][0] ne "" ? 1 : 0 });
call("a thousand calls at once", sub { my $found = all(map { ("SET many$_ $_", "GET many$_") } 1 .. 500); [scalar @$found, @$found[998, 999]] });
call("transaction", sub { all("MULTI", "SET {t}1 1", "INCR {t}1", "EXEC") });
call("transaction, several slots", sub { all("MULTI", "SET t1 1", "SET t2 1", "EXEC") });
call("script", sub { $it->eval("return redis.call('INCRBY', KEYS[1], ARGV[1])", 1, "e", 2)->recv });
call("blocking pop", sub { all("RPUSH jobs 1", "BLPOP jobs 1", "BLPOP jobs 1") });
call("blocking pop, several slots", sub { all("RPUSH jobs 1", "BLPOP jobs more 1") });
call("subscribe", sub { heard("subscribe", "news") });
call("subscribe to a pattern", sub { heard("psubscribe", "new*") });
call("errors of a node", sub { my $set = all("SET a x"); my $wrong = eval { $it->incr("a")->recv; 0 } // "as wanted"; [@$set, $wrong, $it->get("a")->recv] });
call("a call given up", \&given_up);
call("password", sub { $it = connect_to(port => $port + 4); all("AUTH secret", "SET a 1") });
call("flushdb", sub { all("FLUSHDB", "DBSIZE") });
call("database 1", sub { all("SELECT 1", "SET a 1") });
