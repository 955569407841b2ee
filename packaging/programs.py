"""The library, the programs and their man pages, in one folder as a prefix of an installation."""

import os
import re

from common import (
    HEADER,
    PACKAGING,
    ROOT,
    Unfit,
    copy_tracked,
    date,
    link,
    note,
    put,
    run,
    so_version,
    version,
)

SHARED = f"libslotroute.so.{so_version()}"
NOT_PROVED = "THE LIBRARY OF THIS FILE IS NOT PROVED"  # by tools/c-archive
HARDENED = "-fstack-protector-strong -D_FORTIFY_SOURCE=2 -Wformat -Werror=format-security"


def proved_program():
    if not is_proved():
        raise Unfit("no proved program is there: run tests/run, or ./prove")
    return ROOT / "crates" / "slotroute" / "out" / "slotroute"


def is_proved():
    return os.spawnl(os.P_WAIT, ROOT / "tools" / "is-proved", "is-proved") == 0


def tried_program():
    """The program as ./slotroute compiles and keeps it, which proves nothing."""
    map_text = (ROOT / "examples" / "two-nodes.txt").read_text()
    run(ROOT / "slotroute", "node", "foo", input=map_text, env={**os.environ, "SLOTROUTE": "try"})
    sources = run(ROOT / "tools" / "sources-sum", "slotroute").strip()
    return ROOT / "crates" / "slotroute" / "out" / f"tried-{sources}"


def make_library(is_unproved, library, room):
    """The prefix of a library that was named, or of one that is made here."""
    if library:
        if not is_unproved and NOT_PROVED in (library / "include" / HEADER.name).read_text():
            raise Unfit(f"the library in {library} is not proved")
        return library
    note("making the library")
    run(ROOT / "tools" / "c-archive", *["--unproved"][:is_unproved], room / "library")
    return room / "library"


def make_prefix(is_unproved, library, room):
    """Makes a folder with the program in bin, and with include and lib."""
    prefix = room / "prefix"
    program = tried_program() if is_unproved else proved_program()
    made = make_library(is_unproved, library, room)
    put(program, prefix / "bin" / "slotroute", 0o755)
    put(made / "include" / HEADER.name, prefix / "include" / HEADER.name)
    for name in ("libslotroute.a", SHARED, "pkgconfig/slotroute.pc"):
        put(made / "lib" / name, prefix / "lib" / name)
    link(SHARED, prefix / "lib" / "libslotroute.so")
    run("strip", prefix / "bin" / "slotroute")
    run("strip", "--strip-unneeded", prefix / "lib" / SHARED)
    run(
        "strip",
        "--strip-debug",
        "--enable-deterministic-archives",
        prefix / "lib" / "libslotroute.a",
    )
    return prefix


def add_proxy(prefix, room):
    note("making the proxy")
    folder = room / "proxy"
    copy_tracked("proxy", folder)
    flags = [
        "CC=cc",
        f"CFLAGS={HARDENED} -ffile-prefix-map={folder}=. -ffile-prefix-map={prefix}=.",
        "LDFLAGS=-Wl,-z,relro,-z,now -Wl,--build-id=none",
    ]
    run("make", "-s", "-C", folder, f"PREFIX={prefix}", *flags)
    put(folder / "out" / "slotroute-proxy", prefix / "bin" / "slotroute-proxy", 0o755)
    run("strip", prefix / "bin" / "slotroute-proxy")


def add_man_pages(prefix):
    text = (PACKAGING / "slotroute.1").read_text()
    for name, value in {"DATE": date(), "VERSION": version()}.items():
        text = text.replace(f"@{name}@", value)
    put(text, prefix / "share" / "man" / "man1" / "slotroute.1")
    words = ["--section", "8", "--no-info", "--include", PACKAGING / "slotroute-proxy.h2m"]
    page = run("help2man", *words, prefix / "bin" / "slotroute-proxy")
    page = re.sub(r"^\.\\\" DO NOT MODIFY.*\n", "", page, flags=re.M)
    put(page, prefix / "share" / "man" / "man8" / "slotroute-proxy.8")
