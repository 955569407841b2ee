"""What aioredis 1 is used for: the port. Each prints a line of JSON. The port four above wants a password."""

import asyncio
import json
import os
import sys

import aioredis

port = int(sys.argv[1])
SCRIPT = "return redis.call('INCRBY', KEYS[1], ARGV[1])"


def connect(of=port, **settings):
    return aioredis.create_redis_pool(("127.0.0.1", of), **{"encoding": "utf-8", "timeout": 5} | settings)


async def call(name, does):
    if os.environ.get("CALLS_ONLY", name) != name:
        return
    try:
        print(json.dumps([name, await asyncio.wait_for(does(), 20)]), flush=True)
    except Exception as fault:
        print(json.dumps([name, f"ERROR {type(fault).__name__} {fault}"]), flush=True)


async def fault_of(awaited):
    """The error that a call is there to get."""
    try:
        return await awaited
    except (aioredis.RedisError, asyncio.TimeoutError) as fault:
        return f"{type(fault).__name__}, as wanted"


def in_turn(*makes):
    """Awaits one call after the other."""
    async def does():
        return [await make() for make in makes]
    return does


async def fill(pipe, *keys):
    for key in keys:
        pipe.set(key, "1")
        pipe.incr(key)
    return await pipe.execute()


async def deep_pipeline(it):
    pipe = it.pipeline()
    for at in range(1000):
        pipe.set(f"deep{at}", "x" * 10000)
        pipe.get(f"deep{at}")
    found = await pipe.execute()
    await it.delete(*(f"deep{at}" for at in range(1000)))
    return [len(found), sum(map(len, found[1::2]))]


async def watch(it, is_changed):
    with await it as own:
        await own.watch("{w}a")
        if is_changed:
            await it.set("{w}a", "other")
        pipe = own.multi_exec()
        pipe.set("{w}a", "mine")
        return [await fault_of(pipe.execute()), await it.get("{w}a")]


async def heard(it):
    own = await connect()
    channel, = await own.subscribe("news")
    pattern, = await own.psubscribe("new?")
    await it.publish("news", "x")
    found = [await channel.get(encoding="utf-8"), [str(one) for one in await pattern.get(encoding="utf-8")]]
    own.close()
    return found


async def cancelled(it):
    """A call that is cancelled leaves nothing to the next one on its connection."""
    await fault_of(asyncio.wait_for(it.get("a"), 0))
    await fault_of(asyncio.wait_for(it.blpop("nothing", timeout=1), 0.1))
    return [await it.set("a", "1"), await it.get("a")]


async def reconnect():
    own = await connect(maxsize=1)
    await own.set("a", "1")
    await fault_of(own.quit())
    own.close()
    return await (await connect(maxsize=1)).get("a")


async def with_password(word):
    return await (await connect(port + 4, password=word)).set("a", "1")


async def database_1():
    return await (await connect(db=1)).set("a", "1")


async def main():
    it = await connect()
    await call("strings", in_turn(lambda: it.set("a", "1"), lambda: it.get("a"), lambda: it.get("none"), lambda: it.incr("a"), lambda: it.append("a", "2")))
    await call("expiry", in_turn(lambda: it.setex("b", 100, "2"), lambda: it.ttl("b"), lambda: it.persist("b"), lambda: it.ttl("b")))
    await call("several keys", in_turn(lambda: it.mset({"x": "1", "y": "2"}), lambda: it.mget("x", "y", "none"), lambda: it.exists("x", "y"), lambda: it.delete("x", "y")))
    await call("hashes", in_turn(lambda: it.hmset_dict("h", {"f": "1", "g": "2"}), lambda: it.hgetall("h"), lambda: it.hdel("h", "g")))
    await call("lists", in_turn(lambda: it.rpush("l", "1", "2"), lambda: it.lrange("l", 0, -1), lambda: it.lpop("l")))
    await call("sets", in_turn(lambda: it.sadd("s", "m"), lambda: it.sismember("s", "m"), lambda: it.smembers("s")))
    await call("sorted sets", in_turn(lambda: it.zadd("q", 1.5, "m"), lambda: it.zrange("q", 0, -1, withscores=True)))
    await call("streams", in_turn(lambda: it.xadd("stream", {"f": "1"}, message_id="1-1"), lambda: it.xrange("stream"), lambda: it.xlen("stream")))
    await call("scan", lambda: sorted_keys(it))
    await call("pipeline", lambda: fill(it.pipeline(), "p1", "p2"))
    await call("deep pipeline", lambda: deep_pipeline(it))
    await call("transaction", lambda: fill(it.multi_exec(), "{t}1", "{t}2"))
    await call("transaction, several slots", lambda: fill(it.multi_exec(), "t1", "t2"))
    await call("watch", lambda: watch(it, False))
    await call("watch, changed key", lambda: watch(it, True))
    await call("script", in_turn(lambda: it.eval(SCRIPT, ["e"], [2]), lambda: it.script_load(SCRIPT)))
    await call("blocking pop", in_turn(lambda: it.rpush("jobs", "1"), lambda: it.blpop("jobs", timeout=1), lambda: it.blpop("jobs", timeout=1)))
    await call("blocking pop, several slots", lambda: it.blpop("jobs", "more", timeout=1))
    await call("subscribe", lambda: heard(it))
    await call("many calls at once", lambda: asyncio.gather(*(it.incr(f"n{at}") for at in range(700))))
    await call("a call cancelled", lambda: cancelled(it))
    await call("errors of a node", in_turn(lambda: it.set("a", "x"), lambda: fault_of(it.incr("a")), lambda: it.get("a")))
    await call("reconnect", reconnect)
    await call("ping, time, echo", in_turn(it.ping, lambda: it.echo("x")))
    await call("password", in_turn(lambda: with_password("secret"), lambda: fault_of(with_password("wrong"))))
    await call("database 1", database_1)
    await call("flushdb", in_turn(it.flushdb, it.dbsize))


async def sorted_keys(it):
    return sorted([key async for key in it.iscan(match="*")])


asyncio.run(main())
