"""What Python's frameworks use redis-py for, those of them that are installed: the port. Each prints a line of JSON."""

import asyncio
import json
import os
import sys
import threading
import time
from datetime import datetime, timedelta
from importlib.util import find_spec

import redis

port = int(sys.argv[1])
url = f"redis://127.0.0.1:{port}/0"


def call(name, does, needs=None):
    if os.environ.get("CALLS_ONLY", name) != name or not find_spec(needs or name.split(":")[0]):
        return
    try:
        print(json.dumps([name, does()]), flush=True)
    except Exception as fault:
        print(json.dumps([name, f"ERROR {type(fault).__name__} {fault}"]), flush=True)


def queue(name="work"):
    from rq import Queue
    return Queue(name, connection=redis.Redis(port=port))


def work(*queues):
    from rq import SimpleWorker
    return SimpleWorker(list(queues), connection=queues[0].connection).work(burst=True, logging_level="CRITICAL")


def result_of(job):
    if job.get_status() == "failed":
        raise RuntimeError(str(job.exc_info)[-200:])
    return job.result


def a_job():
    own = queue()
    job = own.enqueue(len, "four")
    return [len(own), work(own), result_of(job), job.get_status(), len(own)]


def dependent_jobs():
    own = queue()
    first = own.enqueue(len, "four")
    second = own.enqueue(abs, -2, depends_on=first)
    return [second.get_status(), work(own), second.result]


def failed_job():
    own = queue()
    job = own.enqueue("operator.truediv", 1, 0)
    work(own)
    return [job.get_status(), own.failed_job_registry.count, own.failed_job_registry.requeue(job.id).get_status(), own.empty()]


def later_job():
    own = queue()
    own.enqueue_in(timedelta(hours=1), len, "four")
    return own.scheduled_job_registry.count


def jobs_of_two_queues():
    one, other = queue("{both}one"), queue("{both}other")
    found = [one.enqueue(len, "four"), other.enqueue(len, "three")]
    return [work(one, other), [result_of(job) for job in found]]


def waiting_worker():
    from rq import Queue
    one, other = queue("{both}one"), queue("{both}other")
    threading.Timer(0.3, other.enqueue, [len, "four"]).start()
    job, own = Queue.dequeue_any([one, other], 5, connection=one.connection)
    return [job.func_name, own.name]


def limiter(strategy):
    from limits import parse, storage, strategies
    store = storage.storage_from_string(url)
    own = getattr(strategies, strategy)(store)
    found = [own.hit(parse("3/minute"), strategy, "me") for _ in range(5)]
    return [found, own.get_window_stats(parse("3/minute"), strategy, "me")[1]]


def clear_limits():
    from limits import storage
    own = storage.storage_from_string(url)
    return [own.incr("limited", 60), own.check(), own.clear("limited"), own.get("limited"), own.reset() >= 0]


def cache():
    from cachelib import RedisCache
    own = RedisCache("127.0.0.1", port, key_prefix="lib:")
    found = [own.set("a", {"x": 1}, timeout=60), own.get("a"), own.add("a", 2), own.has("a"), own.inc("n", 2)]
    return found + [own.set_many({"x": 1, "y": 2}), own.get_many("x", "none", "y"), own.delete_many("x", "y"), own.clear(), own.get("a")]


def region():
    from dogpile.cache import make_region
    own = make_region().configure("dogpile.cache.redis", arguments={"url": url, "distributed_lock": True, "thread_local_lock": False})
    own.set_multi({"x": 1, "y": 2})
    return [own.get_or_create("a", lambda: 7), own.get_multi(["x", "y"]), own.delete_multi(["x", "y"]), own.get_or_create_multi(["p", "q"], lambda *keys: [3 for _ in keys])]


def scheduled():
    from apscheduler.jobstores.redis import RedisJobStore
    from apscheduler.schedulers.background import BackgroundScheduler
    own = BackgroundScheduler(jobstores={"default": RedisJobStore(host="127.0.0.1", port=port)}, timezone="UTC")
    own.start(paused=True)
    own.add_job(print, "date", run_date=datetime(2100, 1, 1), id="later", args=["x"])
    found = [[job.id for job in own.get_jobs()], own.get_job("later").args]
    own.remove_all_jobs()
    own.shutdown()
    return found


def layer():
    from channels_redis.core import RedisChannelLayer
    return RedisChannelLayer(hosts=[url], prefix="{asgi}")


async def channel():
    own = layer()
    await own.send("mine", {"type": "x", "text": "y"})
    return await asyncio.wait_for(own.receive("mine"), 5)


async def group():
    own = layer()
    names = [await own.new_channel() for _ in range(3)]
    for name in names:
        await own.group_add("room", name)
    await own.group_send("room", {"type": "x"})
    return [(await asyncio.wait_for(own.receive(name), 5))["type"] for name in names]


async def group_by_messages():
    from channels_redis.pubsub import RedisPubSubChannelLayer
    own = RedisPubSubChannelLayer(hosts=[url])
    names = [await own.new_channel() for _ in range(3)]
    for name in names:
        await own.group_add("room", name)
    await own.group_send("room", {"type": "x"})
    return [(await asyncio.wait_for(own.receive(name), 5))["type"] for name in names]


def emitted():
    import socketio
    hears = redis.Redis(port=port).pubsub(ignore_subscribe_messages=True)
    hears.subscribe("socketio")
    hears.get_message(timeout=5)
    socketio.RedisManager(url, write_only=True).emit("event", {"x": 1}, room="room")
    message = hears.get_message(timeout=5)
    return b"event" in message["data"]


def beaker_cache():
    from beaker.cache import CacheManager
    own = CacheManager(type="ext:redis", url=url, lock_dir="/tmp").get_cache("mine", expire=60)
    return [own.get("a", createfunc=lambda: 7), own.get("a"), own.has_key("a"), own.clear()]


def sessions_of_django():
    from django.conf import settings
    settings.configure(SECRET_KEY="x", SESSION_REDIS={"host": "127.0.0.1", "port": port, "db": 0, "prefix": "session"})
    from redis_sessions.session import SessionStore
    own = SessionStore()
    own["x"] = 1
    own.save()
    found = [SessionStore(own.session_key)["x"], own.exists(own.session_key)]
    own.delete()
    return found + [own.exists(own.session_key)]


call("rq: a job", a_job)
call("rq: dependent jobs", dependent_jobs)
call("rq: a failed job", failed_job)
call("rq: a later job", later_job)
call("rq: jobs of two queues", jobs_of_two_queues)
call("rq: a worker that waits, with a hash tag", waiting_worker)
call("limits: fixed window", lambda: limiter("FixedWindowRateLimiter"))
call("limits: elastic window", lambda: limiter("FixedWindowElasticExpiryRateLimiter"))
call("limits: moving window", lambda: limiter("MovingWindowRateLimiter"))
call("limits: clear", clear_limits)
call("cachelib: a cache", cache)
call("dogpile: a region", region, needs="dogpile.cache")
call("apscheduler: jobs", scheduled)
call("channels_redis: a channel", lambda: asyncio.run(channel()))
call("channels_redis: a group, with a hash tag", lambda: asyncio.run(group()))
call("channels_redis: a group by messages", lambda: asyncio.run(group_by_messages()))
call("socketio: an event", emitted)
call("beaker: a cache", beaker_cache)
call("redis_sessions: sessions of Django", sessions_of_django)
