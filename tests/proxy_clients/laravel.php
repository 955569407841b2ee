<?php
// What Laravel uses Redis for, over phpredis: the port. Each prints a line of JSON. The hash tag is in the prefix of the
// queues alone.
use Illuminate\Cache\RateLimiter;
use Illuminate\Cache\RedisStore;
use Illuminate\Cache\Repository;
use Illuminate\Container\Container;
use Illuminate\Queue\RedisQueue;
use Illuminate\Redis\RedisManager;

foreach (['Redis', 'Cache', 'Queue', 'Container'] as $one) require_once "Illuminate/$one/autoload.php";
$server = ['host' => '127.0.0.1', 'port' => (int)$argv[1], 'database' => 0];
$app = new Container();

function call($name, $does) {
    if ((getenv('CALLS_ONLY') ?: $name) != $name) return;
    try { $found = $does(); } catch (Throwable $fault) { $found = 'ERROR ' . $fault->getMessage(); }
    fwrite(STDOUT, json_encode([$name, $found]) . "\n");
}
function sorted($found) { sort($found); return $found; }

foreach (['phpredis', 'predis'] as $library) {
    if ($library == 'predis') require_once 'Predis/autoload.php';
    $manager = new RedisManager($app, $library, ['default' => $server, 'options' => ['prefix' => 'app_']]);
    $it = $manager->connection();
    $store = new RedisStore($manager, 'cache:');
    $cache = new Repository($store);
    call("$library: commands", fn() => [(string)$it->set('a', '1') != '', $it->get('a'), $it->incr('a'), $it->mget(['a', 'none']), $it->hgetall('none')]);
    call("$library: cache", fn() => [$cache->put('a', ['x' => 1], 60), $cache->get('a'), $cache->add('a', 2, 60), $cache->increment('n'), $cache->forever('f', 1), $cache->forget('a'), $cache->get('a', 'default')]);
    call("$library: cache of many", fn() => [$cache->putMany(['x' => 1, 'y' => 2], 60), $cache->many(['x', 'y', 'none'])]);
    call("$library: remember", fn() => [$cache->remember('r', 60, fn() => 'made'), $cache->remember('r', 60, fn() => 'again')]);
    call("$library: cache with tags", fn() => [$cache->tags(['people'])->put('p', 1, 60), $cache->tags(['people'])->get('p'), $cache->tags(['people'])->flush(), $cache->tags(['people'])->get('p')]);
    call("$library: lock", fn() => [($lock = $store->lock('l', 10))->get(), $store->lock('l', 10)->get(), $lock->release(), $store->lock('l', 10)->get(), $store->lock('l', 10)->forceRelease()]);
    call("$library: rate limiter", function () use ($cache) {
        $limiter = new RateLimiter($cache);
        return [$limiter->hit('me'), $limiter->hit('me'), $limiter->tooManyAttempts('me', 2), $limiter->remaining('me', 5), $limiter->clear('me'), $limiter->attempts('me')];
    });
    call("$library: funnel", fn() => $it->funnel('{f}unnel')->limit(2)->block(1)->then(fn() => 'inside'));
    call("$library: throttle", fn() => [$it->throttle('t')->allow(1)->every(60)->block(0)->then(fn() => 'taken', fn() => 'refused'), $it->throttle('t')->allow(1)->every(60)->block(0)->then(fn() => 'taken', fn() => 'refused')]);
    call("$library: pipeline", fn() => array_map('strval', $it->pipeline(function ($pipe) { $pipe->incr('p1'); $pipe->incr('p2'); })));
    call("$library: transaction, several slots", fn() => array_map('strval', $it->transaction(function ($pipe) { $pipe->incr('t1'); $pipe->incr('t2'); })));
    call("$library: script", fn() => $it->eval("return redis.call('INCRBY', KEYS[1], ARGV[1])", 1, 'e', 2));
    call("$library: queue", function () use ($manager, $app) {
        $queue = new RedisQueue($manager, '{jobs}', null, 60, 1);
        $queue->setContainer($app);
        $queue->pushRaw(json_encode(['id' => 'one', 'attempts' => 0, 'displayName' => 'x', 'job' => 'x']));
        $job = $queue->pop();
        $found = [$queue->size(), $job->getJobId(), $job->attempts()];
        $job->release(0);
        $again = $queue->pop();
        $again->delete();
        return [...$found, $again->attempts(), $queue->size(), $queue->pop()];
    });
    call("$library: flush", fn() => [$cache->flush() == true, $cache->get('x')]);
    call("$library: database 1", function () use ($app, $library, $server) {
        $own = (new RedisManager($app, $library, ['default' => ['database' => 1] + $server]))->connection();
        return $own->set('a', '1') ? true : throw new Exception($own->client()->getLastError());
    });
}
