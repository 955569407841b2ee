"""What the module `_turn` has. If it is not built, Python does all itself."""

from __future__ import annotations

from importlib import import_module
from typing import Any, Callable

# Makes the most frequent calls of a session without ctypes.
Turn: Any
# The request of some words, or None if they are not the usual ones: then `request` makes it.
make_request: Callable[[tuple[Any, ...]], bytes | None]
# The value of a reply, or `NotImplemented` if it is not a usual one: then `value_of` finds it.
find_value: Callable[[bytes], Any]
try:
    _turn: Any = import_module("slotroute._turn")
except ImportError:
    Turn, make_request, find_value = None, lambda _: None, lambda _: NotImplemented
else:
    Turn, make_request, find_value = _turn.Turn, _turn.make_request, _turn.find_value
