"""Django's cache by django-redis: the port. Each thing prints a line of JSON. The port four above wants a password."""

import json
import os
import sys

from django.conf import settings

port = sys.argv[1]


def cache(**options):
    return {"BACKEND": "django_redis.cache.RedisCache", "LOCATION": f"redis://127.0.0.1:{port}/0", "KEY_PREFIX": "app", "OPTIONS": {"SOCKET_TIMEOUT": 20, **options}}


others = {"json": cache(SERIALIZER="django_redis.serializers.json.JSONSerializer"), "zlib": cache(COMPRESSOR="django_redis.compressors.zlib.ZlibCompressor")}
secret = cache(PASSWORD="secret") | {"LOCATION": f"redis://127.0.0.1:{int(port) + 4}/0"}
first = cache() | {"LOCATION": f"redis://127.0.0.1:{port}/1"}
settings.configure(CACHES={"default": cache(), "secret": secret, "first": first, **others}, SECRET_KEY="x", SESSION_ENGINE="django.contrib.sessions.backends.cache")

from django.contrib.sessions.backends.cache import SessionStore
from django.core.cache import cache as it, caches
from django_redis import get_redis_connection


def call(name, does):
    if os.environ.get("CALLS_ONLY", name) != name:
        return
    try:
        print(json.dumps([name, does()]), flush=True)
    except Exception as fault:
        print(json.dumps([name, f"ERROR {fault.__cause__ or fault}"]), flush=True)


def lock():
    with it.lock("lock", timeout=5):
        return it.get("a")


def sessions():
    own = SessionStore()
    own["x"] = 1
    own.save()
    found = [SessionStore(own.session_key)["x"], own.exists(own.session_key)]
    own.flush()
    return [*found, own.exists(own.session_key or "none")]


call("set, get", lambda: [it.set("a", {"x": 1}, 100), it.get("a"), it.add("a", 1), it.get_or_set("b", 2), it.ttl("a"), it.get("none", 7)])
call("expiry", lambda: [it.set("e", 1, 100), it.persist("e"), it.ttl("e"), it.expire("e", 50), it.ttl("e"), it.touch("e", 70), it.ttl("e"), it.pttl("none")])
call("set only what is there", lambda: [it.set("only", 1, xx=True), it.set("only", 1, nx=True), it.set("only", 2, nx=True), it.get("only")])
call("increment", lambda: [it.set("n", 1), it.incr("n"), it.incr("n", 5), it.decr("n")])
call("versions", lambda: [it.set("v", 1, version=1), it.incr_version("v"), it.get("v"), it.get("v", version=2)])
call("set_many, get_many", lambda: [it.set_many({"x": 1, "y": 2}), it.get_many(["x", "y", "none"]), it.has_key("x"), it.delete_many(["x", "y"])])
call("keys", lambda: sorted(it.keys("*")))
call("iter_keys", lambda: sorted(it.iter_keys("*", itersize=3)))
call("delete_pattern", lambda: [it.delete_pattern("n*"), it.get("n")])
call("lock", lock)
call("values as JSON", lambda: [caches["json"].set("j", {"x": [1]}), caches["json"].get("j")])
call("values compressed", lambda: [caches["zlib"].set("z", "x" * 10000), len(caches["zlib"].get("z"))])
call("sessions", sessions)
call("the client below", lambda: [get_redis_connection("default").set("raw", "1"), get_redis_connection("default").pipeline().incr("raw").incr("raw2").execute()])
call("password", lambda: [caches["secret"].set("a", 1), caches["secret"].get("a")])
call("clear", lambda: [it.clear(), it.get("a")])
call("database 1", lambda: caches["first"].set("a", 1))
