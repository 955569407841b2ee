<?php
// What phpredis or Predis is used for: the port, and which of both. Each prints a line of JSON. The port four above
// wants a password.
[, $port, $which] = $argv;
$is_predis = $which == 'predis';
if ($is_predis) require 'Predis/autoload.php';

function connect($of = null, $settings = []) {
    global $port, $is_predis;
    $of ??= (int)$port;
    if ($is_predis) return new Predis\Client(['port' => $of, 'read_write_timeout' => 20] + $settings);
    $it = new Redis();
    $it->connect('127.0.0.1', $of, 5, null, 0, $settings['timeout'] ?? 20);
    if (isset($settings['password'])) $it->auth($settings['password']);
    return $it;
}
function plain($found) {
    if ($found instanceof Predis\Response\ErrorInterface) throw new Exception($found->getMessage());
    if (is_object($found)) $found = (string)$found;
    if (is_array($found)) return array_map('plain', $found);
    return $found === true || $found === 'OK' ? 'OK' : (is_bool($found) ? null : $found);
}
function call($name, $does) {
    global $it, $is_predis;
    if ((getenv('CALLS_ONLY') ?: $name) != $name) return;
    try {
        $it = connect();
        $found = plain($does($it));
        $error = $is_predis ? null : $it->getLastError();
        if ($error) $found = "ERROR $error";
    } catch (Throwable $fault) { $found = 'ERROR ' . $fault->getMessage(); }
    fwrite(STDOUT, json_encode([$name, $found]) . "\n");
}
// The error that a call is there to get.
function fault_of($does, $it = null) {
    global $is_predis;
    try {
        $found = $does();
        $error = $is_predis || !$it ? null : $it->getLastError();
        if ($error) $it->clearLastError();
        return $error ? strtok($error, ' ') . ', as wanted' : plain($found);
    } catch (Throwable $fault) { return strtok($fault->getMessage(), ' ') . ', as wanted'; }
}
function sorted($found) { sort($found); return $found; }
function finish($pipe) {
    global $it, $is_predis;
    $found = $is_predis ? $pipe->execute() : $pipe->exec();
    if ($found === false && $it->getLastError()) throw new Exception($it->getLastError());
    return $found;
}
function pipeline($how, ...$keys) {
    global $it, $is_predis;
    $pipe = $how == 'pipeline' ? $it->pipeline() : ($is_predis ? $it->transaction() : $it->multi());
    foreach ($keys as $key) { $pipe->set($key, '1'); $pipe->incr($key); }
    return finish($pipe);
}
function deep_pipeline($r) {
    $pipe = $r->pipeline();
    for ($at = 0; $at < 1000; $at++) { $pipe->set("deep$at", str_repeat('x', 10000)); $pipe->get("deep$at"); }
    $found = finish($pipe);
    $r->del(array_map(fn($at) => "deep$at", range(0, 999)));
    return [count($found), array_sum(array_map(fn($one) => is_string($one) && $one[0] == 'x' ? strlen($one) : 0, $found))];
}
// A transaction after WATCH, whose key another client may change before.
function watch($r, $is_changed) {
    global $is_predis;
    if ($is_predis) {
        $does = function ($pipe) use ($is_changed) {
            $pipe->get('{w}a');
            if ($is_changed) connect()->set('{w}a', 'other');
            $pipe->multi();
            $pipe->set('{w}a', 'mine');
        };
        return [fault_of(fn() => $r->transaction(['watch' => '{w}a', 'cas' => true], $does)), $r->get('{w}a')];
    }
    $r->watch('{w}a');
    if ($is_changed) connect()->set('{w}a', 'other');
    return [$r->multi()->set('{w}a', 'mine')->exec(), $r->get('{w}a')];
}
function publish_later($channel) {
    if (pcntl_fork() == 0) { usleep(300000); connect()->publish($channel, 'x'); posix_kill(getmypid(), SIGKILL); }
}
function subscribe($r, $how, $name, $channel) {
    global $is_predis;
    publish_later($channel);
    if ($is_predis) {
        $loop = $r->pubSubLoop([$how => $name]);
        foreach ($loop as $message) if (str_ends_with($message->kind, 'message')) { $heard = [$message->channel, $message->payload]; $loop->stop(true); break; }
        return $heard;
    }
    $r->setOption(Redis::OPT_READ_TIMEOUT, 5);
    $heard = null;
    try {
        $r->$how([$name], function ($r, ...$words) use (&$heard) { $heard = array_slice($words, -2); $r->close(); });
    } catch (RedisException) {}
    return $heard;
}
function all_of($r, $how, $key) {
    global $is_predis;
    if ($is_predis) { $class = 'Predis\Collection\Iterator\\' . ['hscan' => 'HashKey', 'sscan' => 'SetKey', 'zscan' => 'SortedSetKey'][$how]; return iterator_to_array(new $class($r, $key)); }
    $at = null; $all = [];
    while (($some = $r->$how($key, $at)) !== false) $all = $some + $all;
    return $all;
}
function scan($r, $pattern) {
    global $is_predis;
    if ($is_predis) return sorted(iterator_to_array(new Predis\Collection\Iterator\Keyspace($r, $pattern)));
    $at = null; $all = [];
    while (($some = $r->scan($at, $pattern)) !== false) $all = array_merge($all, $some);
    return sorted($all);
}
$raw = fn($r, ...$words) => $is_predis ? $r->executeRaw($words) : $r->rawCommand(...$words);
$script = "return redis.call('INCRBY', KEYS[1], ARGV[1])";
$three = "return {redis.call('GET', 'a'), redis.call('GET', 'b'), redis.call('GET', 'c')}";

call('strings', fn($r) => [$r->set('a', '1'), $r->get('a'), $r->get('none'), $r->incr('a'), $r->append('a', '2'), $r->strlen('a'), $r->getrange('a', 0, 0), $r->getset('a', '9'), $r->setnx('a', '1'), $r->incrbyfloat('a', 0.5)]);
call('expiry', fn($r) => [$r->setex('b', 100, '2'), $r->ttl('b'), $r->persist('b'), $r->ttl('b'), $r->expire('b', 50), $r->ttl('b'), $is_predis ? $r->set('b', 1, 'EX', 9, 'XX') : $r->set('b', 1, ['xx', 'ex' => 9])]);
call('several keys', fn($r) => [$r->mset(['x' => '1', 'y' => '2', 'z' => '3']), $r->mget(['x', 'y', 'none']), $r->exists('x', 'y'), $r->del('x', 'y', 'z')]);
call('hashes', fn($r) => [$r->hset('h', 'f', '1'), $r->hmset('h', ['g' => '2', 'i' => '3']), $r->hgetall('h'), $r->hmget('h', ['f', 'none']), $r->hincrby('h', 'f', 2), $r->hdel('h', 'g'), $r->hlen('h')]);
call('lists', fn($r) => [$r->rpush('l', ...($is_predis ? [['1', '2']] : ['1', '2'])), $r->lrange('l', 0, -1), $r->lpop('l'), $r->llen('l'), $r->lpush('l', ...($is_predis ? [['z']] : ['z'])), $r->lrem('l', ...($is_predis ? [1, 'z'] : ['z', 1])), $r->ltrim('l', 0, 0)]);
call('sets', fn($r) => [$r->sadd('s', ...($is_predis ? [['m', 'n']] : ['m', 'n'])), sorted($r->smembers('s')), $r->sismember('s', 'm'), $r->srem('s', 'n'), $r->sadd('{s}2', ...($is_predis ? [['m']] : ['m'])), $r->sinter(['s', '{s}2']), $r->spop('{s}2')]);
call('sorted sets', fn($r) => [$r->zadd('q', ...($is_predis ? [['m' => 1.5, 'n' => 2]] : [1.5, 'm', 2, 'n'])), $r->zrange('q', 0, -1, $is_predis ? ['withscores' => true] : true), $r->zincrby('q', 2, 'm'), $r->zrevrank('q', 'm'), $r->zrangebyscore('q', 0, 3), $r->zscore('q', 'm')]);
call('streams', fn($r) => [$raw($r, 'XADD', 'stream', '1-1', 'f', '1'), $raw($r, 'XADD', 'stream', '2-1', 'f', '2'), $raw($r, 'XLEN', 'stream'), $raw($r, 'XRANGE', 'stream', '-', '+'), $raw($r, 'XREAD', 'STREAMS', 'stream', '1-1')]);
call('a group of a stream', fn($r) => [$raw($r, 'XGROUP', 'CREATE', 'stream', 'readers', '0'), $raw($r, 'XREADGROUP', 'GROUP', 'readers', 'me', 'STREAMS', 'stream', '>'), $raw($r, 'XACK', 'stream', 'readers', '1-1')]);
call('bits, counts and places', fn($r) => [$r->setbit('bits', 3, 1), $r->bitcount('bits'), $r->pfadd('seen', ['a', 'b']), $r->pfcount('seen'), $r->geoadd('geo', 13.36, 38.11, 'p'), $r->geohash('geo', 'p')]);
call('types and copies', fn($r) => [$r->set('{k}a', '1'), $r->type('{k}a'), $r->rename('{k}a', '{k}b'), $raw($r, 'COPY', '{k}b', '{k}c'), $r->restore('{k}d', 0, $r->dump('{k}c')), $r->get('{k}d'), $r->object('encoding', '{k}d')]);
call('large value', fn($r) => [$r->set('big', str_repeat('x', 5000000)), strlen($r->get('big')), $r->del('big')]);
call('keys', fn($r) => [sorted($r->keys('*')), $r->dbsize() > 0, $r->randomkey() != '']);
call('scan', fn($r) => [scan($r, '*'), scan($r, 's*')]);
call('scans of one key', fn($r) => [all_of($r, 'hscan', 'h'), all_of($r, 'sscan', 's'), all_of($r, 'zscan', 'q')]);
call('pipeline', fn($r) => pipeline('pipeline', 'p1', 'p2', 'p3'));
call('deep pipeline', 'deep_pipeline');
call('transaction', fn($r) => pipeline('transaction', '{t}1', '{t}2'));
call('transaction, several slots', fn($r) => pipeline('transaction', 't1', 't2'));
call('transaction, discarded', fn($r) => [$r->set('{t}1', 'kept'), $is_predis ? $raw($r, 'MULTI') : (bool)$r->multi(), $is_predis ? $raw($r, 'DISCARD') : $r->discard(), $r->get('{t}1')]);
call('watch', fn($r) => watch($r, false));
call('watch, changed key', fn($r) => watch($r, true));
call('script', fn($r) => $is_predis ? [$r->eval($script, 1, 'e', 2), $r->evalsha($r->script('load', $script), 1, 'e', 3)] : [$r->eval($script, ['e', 2], 1), $r->evalsha($r->script('load', $script), ['e', 3], 1)]);
call('script without keys', fn($r) => $r->eval('return {1, 2}', ...($is_predis ? [0] : [])));
call('script with keys that it does not name', fn($r) => [$r->mset(['a' => '1', 'b' => '2', 'c' => '3']), $r->eval($three, ...($is_predis ? [0] : []))]);
call('blocking pop', fn($r) => [$r->rpush('jobs', ...($is_predis ? [['1']] : ['1'])), $r->blpop(['jobs'], 1), $r->brpop(['jobs'], 1), $r->lpush('jobs', ...($is_predis ? [['2']] : ['2'])), $r->brpoplpush('jobs', '{jobs}done', 1)]);
call('blocking pop, several slots', fn($r) => [$r->rpush('jobs', ...($is_predis ? [['1']] : ['1'])), $r->blpop(['jobs', 'more'], 1)]);
call('blocking read of a stream', fn($r) => $raw($r, 'XREAD', 'BLOCK', '300', 'STREAMS', 'stream', '$'));
call('subscribe', fn($r) => subscribe($r, 'subscribe', 'news', 'news'));
call('subscribe to a pattern', fn($r) => subscribe($r, 'psubscribe', 'new*', 'newer'));
call('channels', fn($r) => [$r->publish('nobody', 'x'), $r->pubsub('channels', 'none*')]);
call('errors of a node', fn($r) => [$r->set('a', 'x'), fault_of(fn() => $r->incr('a'), $r), fault_of(fn() => $r->hgetall('a'), $r), $r->get('a')]);
call('info', fn($r) => [($r->info()['redis_version'] ?? $r->info()['Server']['redis_version']), ($r->info()['role'] ?? $r->info()['Replication']['role'])]);
call('ping, time, echo', fn($r) => [(bool)$r->ping(), count($r->time()), $r->echo('x')]);
call('client', fn($r) => [$r->client('setname', 'me'), $r->client('getname'), in_array('me', array_column($r->client('list'), 'name'))]);
call('config get', fn($r) => $r->config('get', 'maxmemory-policy'));
call('a call given up', function ($r) use ($is_predis) {
    $own = connect(null, $is_predis ? ['read_write_timeout' => 0.5] : ['timeout' => 0.5]);
    $fault = fault_of(fn() => $own->blpop(['nothing'], 2), $own);
    if ($is_predis) $own->disconnect(); else $own->close();
    return [$fault != null, $r->set('a', '1'), $r->get('a')];
});
call('reconnect', fn($r) => [$r->set('a', '1'), $is_predis ? $r->disconnect() : $r->close(), ($is_predis ? $r : connect())->get('a')]);
call('database 0', fn($r) => [$r->select(0), $r->set('a', '1')]);
call('database 1', fn($r) => [$r->select(1), $r->set('a', '1')]);
call('password', fn($r) => connect($port + 4, ['password' => 'secret'])->set('a', '1'));
call('wrong password', fn($r) => [fault_of(fn() => connect($port + 4, ['password' => 'wrong'])->get('a')), fault_of(fn() => ($own = connect($port + 4))->get('a'))]);
if ($is_predis) {
    call('prefix of keys', fn($r) => [($own = new Predis\Client("tcp://127.0.0.1:$port", ['prefix' => 'app:']))->mset(['a' => '1', 'b' => '2']), $own->mget('a', 'b'), $r->get('app:a')]);
    call('persistent connection', fn($r) => (new Predis\Client("tcp://127.0.0.1:$port?persistent=1"))->set('a', '1'));
    call('error within a pipeline', fn($r) => array_map(fn($one) => $one instanceof Predis\Response\ErrorInterface ? $one->getErrorType() : (string)$one, (new Predis\Client("tcp://127.0.0.1:$port", ['exceptions' => false]))->pipeline(fn($pipe) => $pipe->set('a', 'x')->incr('a')->get('a'))));
} else {
    call('prefix of keys', fn($r) => [$r->setOption(Redis::OPT_PREFIX, 'app:'), $r->mset(['a' => '1', 'b' => '2']), $r->mget(['a', 'b']), connect()->get('app:a')]);
    call('persistent connection', fn($r) => [($own = new Redis())->pconnect('127.0.0.1', (int)$port, 5, 'mine'), $own->set('a', '1'), $own->close()]);
    call('serialized values', fn($r) => [$r->setOption(Redis::OPT_SERIALIZER, Redis::SERIALIZER_PHP), $r->set('a', ['x' => 1]), $r->get('a')]);
    call('sessions', function ($r) use ($port) {
        ini_set('session.save_handler', 'redis');
        ini_set('session.save_path', "tcp://127.0.0.1:$port");
        ini_set('session.use_cookies', '0');
        session_id('mine');
        session_start();
        $_SESSION['x'] = 1;
        session_write_close();
        return $r->get('PHPREDIS_SESSION:mine');
    });
}
call('flushdb', fn($r) => [$r->flushdb(), $r->dbsize()]);
