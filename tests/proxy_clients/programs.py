"""What iredis, webdis and the exporter of figures for Prometheus are used for: the port. Each prints a line of JSON."""

import json
import os
import re
import shutil
import socket
import subprocess
import sys
import tempfile
import time
import urllib.request

port = int(sys.argv[1])


def call(name, does):
    if os.environ.get("CALLS_ONLY", name) != name or not shutil.which(name.split(":")[0]):
        return
    try:
        found = does()
    except OSError as fault:
        found = f"ERROR {fault}"
    print(json.dumps([name, found]), flush=True)


def free_port():
    with socket.socket() as it:
        it.bind(("127.0.0.1", 0))
        return it.getsockname()[1]


def page(of, path, data=None):
    """What a program answers, which may only just have been started."""
    for _ in range(100):
        try:
            with urllib.request.urlopen(f"http://127.0.0.1:{of}/{path}", data, timeout=10) as it:
                return it.read().decode()
        except ConnectionRefusedError:
            time.sleep(0.05)
        except OSError as fault:
            if "refused" not in str(fault):
                raise
            time.sleep(0.05)
    return "ERROR it does not start"


def started(words, of, *paths):
    """What a program answers to these paths, one after the other."""
    runs = subprocess.Popen(words, stdout=subprocess.DEVNULL, stderr=subprocess.DEVNULL)
    try:
        return [page(of, path) for path in paths]
    finally:
        runs.terminate()
        runs.wait()


def webdis(*paths):
    own = free_port()
    with tempfile.NamedTemporaryFile("w", suffix=".json") as settings:
        json.dump({"redis_host": "127.0.0.1", "redis_port": port, "http_host": "127.0.0.1", "http_port": own, "threads": 2, "pool_size": 4, "acl": [], "database": 0, "logfile": "/dev/null"}, settings)
        settings.flush()
        return started(["webdis", settings.name], own, *paths)


def figures(pattern):
    own = free_port()
    found, = started(["prometheus-redis-exporter", "-redis.addr", f"redis://127.0.0.1:{port}", "-web.listen-address", f"127.0.0.1:{own}"], own, "metrics")
    return re.findall(pattern, found)


def count_of_keys():
    """The proxy knows it some seconds later."""
    webdis("FLUSHALL", "MSET/a/1/b/2/c/3/d/4/e/5/f/6/g/7")
    for _ in range(30):
        found = figures(r'(?m)^redis_db_keys{db="db0"} .*')
        if found[0].endswith(" 7"):
            break
        time.sleep(1)
    return found


def iredis(text):
    return subprocess.run(["iredis", "-p", str(port)], input=text, capture_output=True, text=True, timeout=30).stdout


call("webdis: strings", lambda: webdis("SET/a/1", "GET/a", "GET/a.txt", "GET/none", "INCR/a"))
call("webdis: several keys", lambda: webdis("MSET/x/1/y/2", "MGET/x/none/y", "DEL/x/y"))
call("webdis: lists and hashes", lambda: webdis("RPUSH/l/1/2", "LRANGE/l/0/-1", "HSET/h/f/1", "HGETALL/h"))
call("webdis: info", lambda: ['redis_version":"7' in it for it in webdis("INFO")])
call("webdis: an error of the server", lambda: ["ERR" in it for it in webdis("SET/a/x", "INCR/a")])
call("iredis: commands", lambda: iredis("set a 1\nget a\nmget a none\nhgetall h\n"))
call("iredis: a transaction", lambda: iredis("multi\nset {t}a 1\nincr {t}a\nexec\n"))
call("prometheus-redis-exporter: a server that is up", lambda: figures(r"(?m)^redis_(?:up|exporter_last_scrape_error\S*) \d"))
call("prometheus-redis-exporter: about the server", lambda: figures(r'redis_version="[^"]*"|role="[^"]*"|maxmemory_policy="[^"]*"|redis_mode="[^"]*"'))
call("prometheus-redis-exporter: memory and clients", lambda: figures(r"(?m)^redis_(?:memory_max_bytes .*|connected_clients |uptime_in_seconds |memory_used_bytes )"))
call("prometheus-redis-exporter: keys", count_of_keys)
