"""Splits a request, and combines replies to its parts.

    python3 -m slotroute [LIBRARY]
"""

import sys

from . import Library, Refused, request


def main() -> None:
    library = Library(sys.argv[1] if len(sys.argv) > 1 else None)
    print("slot of foo:", library.slot(b"foo"))
    asked = request("MGET", "foo", "bar", "foo")
    for slot, part in library.split(asked):
        print(slot, part)
    replies = [b"*2\r\n$1\r\nx\r\n$1\r\nx\r\n", b"*1\r\n$-1\r\n"]
    print(library.combine(asked, replies))
    routed = library.route(request("KEYS", "*"))
    print(library.combine_answers(routed.policy, [b"*1\r\n$3\r\nfoo\r\n", b"*1\r\n$3\r\nbar\r\n"]))
    if moved := library.redirect(b"MOVED 3999 127.0.0.1:6381", b"n1"):
        told, host = moved
        print("moved to", host, told.port, "slot", told.slot)
    try:
        library.split(request("GET", "foo"))
    except Refused as refused:
        print("GET foo:", refused)


if __name__ == "__main__":
    main()
