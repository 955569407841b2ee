"""What redis-benchmark is used for: the port. Each prints a line of JSON: the tests that it ran, or its error."""

import json
import os
import re
import subprocess
import sys

port = sys.argv[1]


def call(name, *words, on=port):
    if os.environ.get("CALLS_ONLY", name) != name:
        return
    run = subprocess.run(["redis-benchmark", "-p", on, "-q", *words], capture_output=True, text=True, timeout=60)
    found = run.stdout + run.stderr
    wrong = re.search(r"(?m)^.*(Error|ERR ).*", found)
    tests = sorted(set(re.findall(r"(?:^|[\r\n])([^\r\n]+?): [\d.]+ requests per second", found)))
    print(json.dumps([name, f"ERROR {wrong[0]}" if wrong else tests]), flush=True)


call("all tests", "-n", "500")
call("pipelines of 16", "-t", "set,get,incr,mset", "-P", "16", "-n", "5000", "-r", "1000")
call("pipelines of 1000 large values", "-t", "set,get", "-P", "1000", "-n", "5000", "-d", "5000", "-c", "5")
call("inline PING", "-t", "ping_inline", "-n", "5000")
call("two threads", "-t", "set,get", "--threads", "2", "-n", "5000")
call("version 3 of the protocol", "-3", "-t", "set,get,hset,lrange", "-n", "2000")
call("a connection for each request", "-k", "0", "-t", "set,get", "-n", "500")
call("500 clients", "-c", "500", "-t", "set,get", "-n", "5000")
call("a command of one's own", "-n", "2000", "-r", "1000", "HSET", "h:__rand_int__", "f", "__rand_int__")
call("a script", "-n", "2000", "-r", "1000", "EVAL", "return redis.call('INCR', KEYS[1])", "1", "n:__rand_int__")
call("with a password", "-a", "secret", "-t", "set", "-n", "1000", on=str(int(port) + 4))
