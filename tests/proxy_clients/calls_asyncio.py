"""What redis-py is used for with asyncio: the port. Each prints a line of JSON. The port four above wants a password."""

import asyncio
import json
import os
import sys

import redis
import redis.asyncio

port = int(sys.argv[1])
SCRIPT = "return redis.call('INCRBY', KEYS[1], ARGV[1])"


def connect(**settings):
    return redis.asyncio.Redis(**{"port": port, "decode_responses": True, "socket_timeout": 20} | settings)


async def call(name, does):
    if os.environ.get("CALLS_ONLY", name) != name:
        return
    try:
        print(json.dumps([name, await asyncio.wait_for(does(), 30)]), flush=True)
    except Exception as fault:
        print(json.dumps([name, f"ERROR {type(fault).__name__} {fault}"]), flush=True)


async def fault_of(awaited):
    """The error that a call is there to get."""
    try:
        return await awaited
    except (redis.RedisError, asyncio.TimeoutError) as fault:
        return f"{type(fault).__name__}, as wanted"


def in_turn(*makes):
    """Awaits one call after the other."""
    async def does():
        return [await make() for make in makes]
    return does


async def fill(pipe, *keys):
    for key in keys:
        pipe.set(key, "1").incr(key)
    return await pipe.execute()


async def deep_pipeline(it):
    pipe = it.pipeline(transaction=False)
    for at in range(1000):
        pipe.set(f"deep{at}", "x" * 10000).get(f"deep{at}")
    found = await pipe.execute()
    await it.delete(*(f"deep{at}" for at in range(1000)))
    return [len(found), sum(map(len, found[1::2]))]


async def watch(it, is_changed):
    async with it.pipeline() as pipe:
        await pipe.watch("{w}a")
        if is_changed:
            await it.set("{w}a", "other")
        pipe.multi()
        pipe.set("{w}a", "mine")
        return [await fault_of(pipe.execute()), await it.get("{w}a")]


async def heard(it):
    hears = it.pubsub(ignore_subscribe_messages=True)
    await hears.subscribe("news")
    await hears.psubscribe("new?")
    await asyncio.sleep(0.2)
    await it.publish("news", "x")
    found = []
    while len(found) < 2:
        message = await hears.get_message(timeout=5)
        if message:
            found.append([message["type"], message["data"]])
    await hears.close()
    return found


async def cancelled(it):
    """A call that is cancelled leaves nothing to the next one on its connection."""
    await fault_of(asyncio.wait_for(it.blpop(["nothing"], 3), 0.2))
    return [await it.set("a", "1"), await it.get("a")]


async def lock(it):
    async with it.lock("lock", timeout=5) as held:
        return [await it.exists("lock"), await held.extend(5)]


async def gathered(it):
    found = await asyncio.gather(*(it.incr(f"n{at % 7}") for at in range(700)))
    return [len(found), await it.mget([f"n{at}" for at in range(7)])]


async def scan(it):
    return [sorted([key async for key in it.scan_iter("*")]), [one async for one in it.hscan_iter("h")]]


async def main():
    it = connect()
    other = lambda **more: connect(port=port + 4, **more)
    await call("strings", in_turn(lambda: it.set("a", "1"), lambda: it.get("a"), lambda: it.get("none"), lambda: it.incr("a"), lambda: it.append("a", "2")))
    await call("expiry", in_turn(lambda: it.setex("b", 100, "2"), lambda: it.ttl("b"), lambda: it.persist("b"), lambda: it.ttl("b")))
    await call("several keys", in_turn(lambda: it.mset({"x": "1", "y": "2"}), lambda: it.mget("x", "y", "none"), lambda: it.exists("x", "y"), lambda: it.delete("x", "y")))
    await call("hashes", in_turn(lambda: it.hset("h", mapping={"f": "1", "g": "2"}), lambda: it.hgetall("h"), lambda: it.hdel("h", "g")))
    await call("lists", in_turn(lambda: it.rpush("l", "1", "2"), lambda: it.lrange("l", 0, -1), lambda: it.lpop("l")))
    await call("sets", in_turn(lambda: it.sadd("s", "m"), lambda: it.sismember("s", "m"), lambda: it.scard("s")))
    await call("sorted sets", in_turn(lambda: it.zadd("q", {"m": 1.5}), lambda: it.zrange("q", 0, -1, withscores=True)))
    await call("streams", in_turn(lambda: it.xadd("stream", {"f": "1"}, id="1-1"), lambda: it.xrange("stream"), lambda: it.xread({"stream": "$"}, block=200)))
    await call("scan", lambda: scan(it))
    await call("pipeline", lambda: fill(it.pipeline(transaction=False), "p1", "p2"))
    await call("deep pipeline", lambda: deep_pipeline(it))
    await call("transaction", lambda: fill(it.pipeline(), "{t}1", "{t}2"))
    await call("transaction, several slots", lambda: fill(it.pipeline(), "t1", "t2"))
    await call("watch", lambda: watch(it, False))
    await call("watch, changed key", lambda: watch(it, True))
    await call("script", in_turn(lambda: it.eval(SCRIPT, 1, "e", 2), lambda: it.register_script(SCRIPT)(keys=["e"], args=[3])))
    await call("blocking pop", in_turn(lambda: it.rpush("jobs", "1"), lambda: it.blpop(["jobs"], 1), lambda: it.blpop(["jobs"], 1)))
    await call("blocking pop, several slots", lambda: it.blpop(["jobs", "more"], 1))
    await call("subscribe", lambda: heard(it))
    await call("lock", lambda: lock(it))
    await call("many calls at once", lambda: gathered(it))
    await call("a call cancelled", lambda: cancelled(it))
    await call("errors of a node", in_turn(lambda: it.set("a", "x"), lambda: fault_of(it.incr("a")), lambda: it.get("a")))
    await call("reconnect", in_turn(lambda: it.set("a", "1"), it.connection_pool.disconnect, lambda: it.get("a")))
    await call("ping, time, client", in_turn(it.ping, lambda: it.client_setname("me"), it.client_getname))
    await call("password", in_turn(lambda: other(password="secret").set("a", "1"), lambda: fault_of(other(password="wrong").get("a"))))
    await call("database 1", lambda: connect(db=1).set("a", "1"))
    await call("flushdb", in_turn(it.flushdb, it.dbsize))


asyncio.run(main())
