"""The errors that a client raises. If redis-py is installed they are its own, and else others of
the same names, of which `ConnectionError` and `TimeoutError` are also Python's. An error of a node is
a `ResponseError`, or the kind that its first word names.
"""

from __future__ import annotations

import builtins
from importlib import import_module
from typing import Any

_of_redis: Any
try:
    _of_redis = import_module("redis.exceptions")
except ImportError:
    _of_redis = None


def _named(name: str, *bases: type[Exception]) -> type[Exception]:
    """redis-py's error of a name, or an own one of the same name."""
    found: type[Exception] | None = getattr(_of_redis, name, None)
    return found or type(name, bases, {"__module__": __name__})


RedisError = _named("RedisError", Exception)
ConnectionError = _named("ConnectionError", RedisError, builtins.ConnectionError)
TimeoutError = _named("TimeoutError", RedisError, builtins.TimeoutError)
InvalidResponse = _named("InvalidResponse", RedisError)
ResponseError = _named("ResponseError", RedisError)
AuthenticationError = _named("AuthenticationError", ConnectionError)
BusyLoadingError = _named("BusyLoadingError", ConnectionError)
ExecAbortError = _named("ExecAbortError", ResponseError)
NoPermissionError = _named("NoPermissionError", ResponseError)
NoScriptError = _named("NoScriptError", ResponseError)
OutOfMemoryError = _named("OutOfMemoryError", ResponseError)
ReadOnlyError = _named("ReadOnlyError", ResponseError)
ClusterError = _named("ClusterError", RedisError)
ClusterDownError = _named("ClusterDownError", ClusterError, ResponseError)
MasterDownError = _named("MasterDownError", ClusterDownError)
ClusterCrossSlotError = _named("ClusterCrossSlotError", ResponseError)
TryAgainError = _named("TryAgainError", ResponseError)
AskError = _named("AskError", ResponseError)
MovedError = _named("MovedError", AskError)

_KINDS = {
    "ASK": AskError,
    "CLUSTERDOWN": ClusterDownError,
    "CROSSSLOT": ClusterCrossSlotError,
    "ERR": ResponseError,
    "EXECABORT": ExecAbortError,
    "LOADING": BusyLoadingError,
    "MASTERDOWN": MasterDownError,
    "MOVED": MovedError,
    "NOAUTH": AuthenticationError,
    "NOPERM": NoPermissionError,
    "NOSCRIPT": NoScriptError,
    "OOM": OutOfMemoryError,
    "READONLY": ReadOnlyError,
    "TRYAGAIN": TryAgainError,
    "WRONGPASS": AuthenticationError,
}
# The beginnings of errors that the session makes itself, as its calls of C give them.
_OF_SESSION = {"the time is over; ": TimeoutError, "a connection ended; ": ConnectionError}


def error_of(text: bytes) -> Exception:
    """The error of an error reply, by its text without the mark and the end of its line. Its
    message has no word that its class stands for, as redis-py has it."""
    whole = text.decode("utf-8", "backslashreplace")
    name, _, rest = whole.partition(" ")
    kind = _KINDS.get(name)
    if kind is None:
        return ResponseError(whole)
    if name == "ERR":
        kind = next((of for start, of in _OF_SESSION.items() if rest.startswith(start)), kind)
    try:
        return kind(rest)
    except ValueError:  # redis-py's MovedError reads the address, and not each text has one
        return ResponseError(whole)
