"""Where the shared library is, and whether this processor can run it."""

from __future__ import annotations

from pathlib import Path

NAME = "libslotroute.so.0.2"
# What x86-64-v2 adds, by the names of /proc/cpuinfo. There, pni is SSE3, and lahf_lm is LAHF.
WANTED = ("cx16", "lahf_lm", "pni", "popcnt", "sse4_1", "sse4_2", "ssse3")


def library_path() -> str:
    """The library in this package, or that of `prebuilt` if the package is used in its tree, or else
    the name by which the loader looks for it."""
    package = Path(__file__).resolve().parent
    prebuilt = package.parent.parent / "prebuilt" / "x86_64-linux" / "lib"
    for folder in (package, prebuilt):
        if (folder / NAME).exists():
            return str(folder / NAME)
    return NAME


def processor_lacks(cpuinfo: str = "/proc/cpuinfo") -> list[str]:
    """What the library needs and the processor lacks, or nothing if the file can't be read."""
    try:
        lines = Path(cpuinfo).read_text(encoding="ascii", errors="replace").splitlines()
    except OSError:
        return []
    flags: set[str] = set()
    for line in lines:
        name, _, value = line.partition(":")
        if name.strip() == "flags":
            flags.update(value.split())
            break
    return [it for it in WANTED if it not in flags]
