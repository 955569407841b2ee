"""Looks at proxies from outside."""

import os
import re
import socket
import urllib.error
import urllib.request
from contextlib import suppress

from shared import PORT, PROXY

FIGURES = PORT + 9


def raw(port=PROXY):
    """A connection to a port, or to a path."""
    if isinstance(port, str):
        connection = socket.socket(socket.AF_UNIX)
        connection.settimeout(30)
        connection.connect(port)
        return connection
    return socket.create_connection(("127.0.0.1", port), timeout=30)


def rest_of(connection):
    """What comes until the other side closes the connection."""
    found = b""
    with suppress(ConnectionResetError):
        while more := connection.recv(1 << 16):
            found += more
    return found


def memory_of(process):
    return int(re.search(r"VmRSS:\s+(\d+)", open(f"/proc/{process.pid}/status").read()).group(1))


def descriptors_of(process):
    return len(os.listdir(f"/proc/{process.pid}/fd"))


def page(path, port=FIGURES, method="GET"):
    """The status, the type and the text of a page at the port of figures."""
    asked = urllib.request.Request(f"http://127.0.0.1:{port}{path}", method=method)
    try:
        found = urllib.request.urlopen(asked, timeout=10)
    except urllib.error.HTTPError as error:
        found = error
    with found:
        return found.status, found.headers["Content-Type"], found.read().decode()


def figures(port=FIGURES):
    """The figures, by their names with their labels."""
    text = page("/metrics", port)[2]
    return {name: float(value) for name, value in re.findall(r"^slotroute_proxy_(\S+) (\S+)$", text, re.M)}
