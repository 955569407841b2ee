"""Tasks of Celery over Redis: the port. Each thing prints a line of JSON. What keys begin with has a hash tag, but for the last one."""

import json
import os
import re
import subprocess
import sys
import tempfile
import time

from celery import Celery, chain, chord, group

port, prefix = os.environ.get("CALLS_PORT") or sys.argv[1], os.environ.get("CALLS_PREFIX", "{celery}")
url = f"redis://127.0.0.1:{port}/0"


def application(prefix):
    own = Celery("celery_tasks", broker=url, backend=url)
    options = {"socket_timeout": 20, "global_keyprefix": prefix}
    own.conf.update(broker_transport_options=options, result_backend_transport_options=options, broker_connection_retry=False, broker_pool_limit=3)
    return own


app = application(prefix)


@app.task
def add(x, y):
    return x + y


@app.task
def total(numbers):
    return sum(numbers)


@app.task(bind=True, max_retries=3)
def later(self, x):
    if self.request.retries < 2:
        raise self.retry(countdown=0.1)
    return x + self.request.retries


@app.task
def fails():
    raise ValueError("as wanted")


def call(name, does, why=""):
    if os.environ.get("CALLS_ONLY", name) != name:
        return
    try:
        print(json.dumps([name, does()]), flush=True)
    except Exception as fault:
        print(json.dumps([name, f"ERROR {type(fault).__name__} {fault} {why and why()}"]), flush=True)


def start(prefix, log):
    words = [sys.executable, "-m", "celery", "-A", "celery_tasks", "worker", "-P", "solo", "-l", "ERROR", "--without-gossip", "--without-mingle"]
    environment = os.environ | {"CALLS_PORT": port, "CALLS_PREFIX": prefix, "PYTHONDONTWRITEBYTECODE": "1"}
    return subprocess.Popen(words, cwd=os.path.dirname(os.path.abspath(__file__)), env=environment, stdout=log, stderr=log)


def end(worker):
    worker.terminate()
    worker.wait()


def forgotten():
    result = add.delay(1, 2)
    found = [result.get(timeout=15)]
    result.forget()
    return [*found, result.state]


def told_fault():
    try:
        return fails.delay().get(timeout=15)
    except ValueError as fault:
        return str(fault)


def with_tag():
    with open(os.devnull, "w") as nowhere:
        worker = start(prefix, nowhere)
    try:
        call("a task", lambda: add.delay(1, 2).get(timeout=15))
        call("a later task", lambda: add.apply_async((1, 2), countdown=1).get(timeout=15))
        call("a task that is tried again", lambda: later.delay(1).get(timeout=15))
        call("a task that fails", told_fault)
        call("a chain", lambda: chain(add.s(1, 2), add.s(3))().get(timeout=15))
        call("a group", lambda: group(add.s(it, 1) for it in range(3))().get(timeout=15))
        call("a chord", lambda: chord([add.s(it, 1) for it in range(3)], total.s())().get(timeout=15))
        call("many tasks", lambda: [it.get(timeout=30) for it in [add.delay(1, at) for at in range(50)]][-1])
        call("a result that is forgotten", forgotten)
        call("ping of the worker", lambda: [list(it.values()) for it in app.control.ping(timeout=3)])
        call("purge of the queue", lambda: app.control.purge())
    finally:
        end(worker)


def told_by(log):
    """Why the worker can't read, which it may tell only after it has started."""
    for _ in range(60):
        log.seek(0)
        found = re.findall(r"CROSSSLOT.*", log.read())
        if found:
            return found[-1]
        time.sleep(0.5)
    return ""


def without_tag():
    """The worker tells why it can't read its queues, and the client waits in vain."""
    with tempfile.TemporaryFile("w+") as log:
        worker = start("", log)
        own = application("")
        try:
            call("a task, without a hash tag", lambda: own.send_task("celery_tasks.add", (1, 2)).get(timeout=10), lambda: told_by(log))
        finally:
            end(worker)


if __name__ == "__main__":
    with_tag()
    without_tag()
