"""What client libraries of Debian do."""

import os
import shutil
import subprocess

from notifications import tell_keys
from shared import LeftOut, PROXY

PYTHON = "/usr/bin/python3"  # Debian's own, which has Debian's libraries


def runs(*words):
    """Whether a program says that all was as wanted."""
    run = subprocess.run(words, capture_output=True, text=True, timeout=100)
    print(run.stdout, run.stderr)
    return run.stdout.endswith("as wanted\n")


REDIS_PY = """
import redis
client = redis.Redis(port={port}, socket_timeout=20)
client.flushall()

ahead, value = client.pipeline(transaction=False), b"x" * 10000
for at in range(1000):
    ahead.set(f"ahead{at}", value)
    ahead.get(f"ahead{at}")
assert ahead.execute() == [True, value] * 1000

told = client.pubsub()
told.psubscribe("__keyspace@0__:*")
told.subscribe("__keyevent@0__:del")
found = [told.get_message(timeout=5)["type"] for _ in range(2)]
assert found == ["psubscribe", "subscribe"], found
client.mset({f"told{at}": at for at in range(20)})
client.delete(*(f"told{at}" for at in range(20)))
found = [told.get_message(timeout=5)["channel"] for _ in range(60)]
assert found.count(b"__keyevent@0__:del") == 20 and all(found.count(b"__keyspace@0__:told%d" % at) == 2 for at in range(20)), found
told.close()

told = client.pubsub()
told.subscribe("news")
told.psubscribe("more*")
told.unsubscribe()
told.subscribe("news")
found = [told.get_message(timeout=5)["type"] for _ in range(4)]
assert found == ["subscribe", "psubscribe", "unsubscribe", "subscribe"], found
client.publish("news", "x")
assert told.get_message(timeout=5)["data"] == b"x"
told.close()

assert sorted(client.scan_iter(match="ahead?", count=100, _type="string")) == [b"ahead%d" % at for at in range(10)]
assert len(set(client.scan_iter())) == 1000

def add(pipe):
    old = int(pipe.get("{sum}a") or 0)
    pipe.multi()
    pipe.set("{sum}a", old + 1)
    pipe.incr("{sum}b")
assert client.transaction(add, "{sum}a", "{sum}b") == [True, 1]
assert client.delete("{sum}a", "{sum}b") == 2

assert client.info()["maxmemory_policy"] == client.config_get()["maxmemory-policy"] and client.role()[0] == b"master"
client.client_setname("me")
assert [it["name"] for it in client.client_list()].count("me") == 1 and client.client_info()["name"] == "me"

other = redis.Redis(port={port}, db=1)
try:
    other.flushdb()
    raise SystemExit("database 1 is there")
except redis.ResponseError:
    pass
assert client.dbsize() == 1000
print("as wanted")
"""


def try_redis_py():
    """The package python3-redis writes its pipeline before it reads, subscribes, and selects a database."""
    if subprocess.run([PYTHON, "-c", "import redis"], capture_output=True).returncode != 0:
        raise LeftOut("the package python3-redis is not installed")
    tell_keys("KEA")
    try:
        return runs(PYTHON, "-c", REDIS_PY.replace("{port}", str(PROXY)))
    finally:
        tell_keys("")


PHP = """
$client = new Redis();
$client->connect('127.0.0.1', {port});
$ahead = $client->multi(Redis::PIPELINE);
$value = str_repeat('x', 10000);
for ($at = 0; $at < 1000; $at++) {
    $ahead->set("ahead$at", $value);
    $ahead->get("ahead$at");
}
$found = $ahead->exec();
for ($at = 0; $at < 1000; $at++)
    if ($found[2 * $at] !== true || $found[2 * $at + 1] !== $value)
        exit("ahead $at");
$client->set('{sum}a', '1');
$client->watch('{sum}a');
$found = $client->multi()->incr('{sum}a')->get('{sum}a')->exec();
if ($found !== [2, '2'])
    exit('transaction');
$client->watch('{sum}a');
$client->close();
$client->connect('127.0.0.1', {port});
if ($client->select(1) || $client->flushDB())
    exit('database 1 is there');
if (!$client->select(0) || $client->dbSize() < 1000)
    exit('database 0');
echo "as wanted\n";
"""


def try_php():
    """The package php-redis does so, too."""
    if shutil.which("php") is None or subprocess.run(["php", "-r", "exit(extension_loaded('redis') ? 0 : 1);"]).returncode != 0:
        raise LeftOut("the package php-redis is not installed")
    return runs("php", "-r", PHP.replace("{port}", str(PROXY)))


NODE = """
const client = require('/usr/share/nodejs/redis').createClient({ socket: { port: {port} } });
const must = (holds, what) => { if (!holds) throw new Error(what); };
(async () => {
    await client.connect();
    const value = 'x'.repeat(10000), all = [];
    for (let at = 0; at < 1000; at++)
        all.push(client.set(`ahead${at}`, value), client.get(`ahead${at}`));
    const found = await Promise.all(all);
    must(found.every((it, at) => it === (at % 2 ? value : 'OK')), 'ahead');
    console.log('as wanted');
    await client.watch('{sum}a');
    const told = await client.multi().set('{sum}a', '1').ping().incr('{sum}a').exec();
    must(JSON.stringify(told) === '["OK","PONG",2]', told);
    const keys = [];
    for await (const key of client.scanIterator({ MATCH: 'ahead7*', COUNT: 100 }))
        keys.push(key);
    must(keys.length === 111, keys);
    await client.quit();
})().catch(fault => { console.log(fault); process.exit(1); });
"""


def try_node():
    """The package node-redis does so, too."""
    if not os.path.exists("/usr/share/nodejs/redis"):
        raise LeftOut("the package node-redis is not installed")
    return runs("env", "NODE_PATH=/usr/share/nodejs", "node", "-e", NODE.replace("{port}", str(PROXY)))
