<?php
// What Symfony uses Redis for: the port. Each prints a line of JSON.
use Symfony\Component\Cache\Adapter\RedisAdapter;
use Symfony\Component\Cache\Adapter\RedisTagAwareAdapter;
use Symfony\Component\HttpFoundation\Session\Storage\Handler\RedisSessionHandler;
use Symfony\Component\Lock\Key;
use Symfony\Component\Lock\LockFactory;
use Symfony\Component\Lock\Store\RedisStore;
use Symfony\Component\Messenger\Bridge\Redis\Transport\Connection;

foreach (['Cache', 'Lock', 'HttpFoundation', 'Messenger/Bridge/Redis'] as $one) @include_once "Symfony/Component/$one/autoload.php";
require_once 'Predis/autoload.php';
$port = (int)$argv[1];

function call($name, $does) {
    if ((getenv('CALLS_ONLY') ?: $name) != $name) return;
    try { $found = $does(); } catch (Throwable $fault) { $found = 'ERROR ' . $fault->getMessage(); }
    fwrite(STDOUT, json_encode([$name, $found]) . "\n");
}
function keep($pool, $name, $value, $tags = []) {
    $item = $pool->getItem($name)->set($value)->expiresAfter(60);
    if ($tags) $item->tag($tags);
    return $pool->save($item);
}

foreach (['phpredis' => [], 'predis' => ['class' => Predis\Client::class]] as $library => $settings) {
    $it = RedisAdapter::createConnection("redis://127.0.0.1:$port/0", $settings);
    $pool = new RedisAdapter($it, 'pool', 60);
    call("$library: cache", fn() => [keep($pool, 'a', ['x' => 1]), $pool->getItem('a')->get(), $pool->hasItem('a'), $pool->get('made', fn() => 7), $pool->get('made', fn() => 8), $pool->deleteItem('a'), $pool->hasItem('a')]);
    call("$library: cache of many", function () use ($pool) {
        foreach (range(0, 49) as $at) $pool->saveDeferred($pool->getItem("many$at")->set($at));
        $found = [$pool->commit()];
        $sum = 0;
        foreach ($pool->getItems(array_map(fn($at) => "many$at", range(0, 49))) as $item) $sum += $item->get();
        return [...$found, $sum, $pool->deleteItems(['many0', 'many1']), $pool->hasItem('many0')];
    });
    call("$library: clear by a prefix", fn() => [$pool->clear('many'), $pool->hasItem('many7'), $pool->hasItem('made'), $pool->clear(), $pool->hasItem('made')]);
    call("$library: cache with tags", function () use ($it) {
        $tagged = new RedisTagAwareAdapter($it, 'tagged');
        return [keep($tagged, 'p', 1, ['people']), $tagged->getItem('p')->get(), $tagged->invalidateTags(['people']), $tagged->hasItem('p')];
    });
    call("$library: lock", function () use ($it) {
        $factory = new LockFactory(new RedisStore($it));
        $lock = $factory->createLock('own', 10);
        return [$lock->acquire(), $factory->createLock('own', 10)->acquire(), $lock->refresh(), $lock->isAcquired(), $lock->release(), $factory->createLock('own', 10)->acquire()];
    });
    call("$library: lock for readers", function () use ($it) {
        $store = new RedisStore($it);
        [$one, $other] = [new Key('shared'), new Key('shared')];
        $store->saveRead($one);
        $store->saveRead($other);
        return [$store->exists($one), $store->exists($other), $store->delete($one), $store->delete($other)];
    });
    call("$library: sessions", function () use ($it) {
        $own = new RedisSessionHandler($it, ['prefix' => 'session']);
        $own->open('', 'session');
        return [$own->write('mine', 'x|i:1;'), $own->read('mine'), $own->destroy('mine'), (bool)$it->exists('sessionmine')];
    });
}
call('messenger: a message', function () use ($port) {
    $own = Connection::fromDsn("redis://127.0.0.1:$port/messages", ['auto_setup' => true]);
    $own->add('{"x": 1}', ['type' => 'y']);
    $found = $own->get();
    $own->ack($found['id']);
    return [json_decode($found['data']['message'], true)['body'], $own->get()];
});
call('messenger: a later message', function () use ($port) {
    $own = Connection::fromDsn("redis://127.0.0.1:$port/messages", ['auto_setup' => true]);
    $own->add('{"x": 2}', [], 300);
    $found = [$own->get()];
    usleep(400000);
    $late = $own->get();
    $own->reject($late['id']);
    return [...$found, json_decode($late['data']['message'], true)['body']];
});
call('database 1', fn() => RedisAdapter::createConnection("redis://127.0.0.1:$port/1")->set('a', '1'));
