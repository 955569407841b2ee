"""The packages for Debian: the shared library, what a compiler needs, the program and the proxy."""

import gzip
import hashlib
import re
from email.utils import formatdate

from common import (
    PACKAGING,
    ROOT,
    SUMMARY,
    epoch,
    link,
    note,
    put,
    run,
    settle,
    so_version,
    version,
)
from programs import SHARED

MULTIARCH = "x86_64-linux-gnu"
LIBRARY = f"libslotroute{so_version()}"
MAINTAINER = "The maintainers of slotroute <slotroute@packages.invalid>"
BYTES = """ The library takes the bytes of requests and replies of the Redis protocol. It
 splits a request by slot, says where each part goes, and makes one reply of
 the replies. Its code is proved against contracts. It needs a processor of
 x86-64-v2.
"""


def revision():
    return f"{version()}-1"


def make_debs(prefix, room, out):
    note("making the packages for Debian")
    for make in (library_package, dev_package, program_package, proxy_package):
        folder = room / "debs" / make.__name__
        fields = make(prefix, folder)
        finish(folder, fields, out)


def library_package(prefix, folder):
    put(prefix / "lib" / SHARED, folder / "usr" / "lib" / MULTIARCH / SHARED)
    control(folder, "shlibs", f"libslotroute {so_version()} {LIBRARY} (>= {version()})\n")
    control(folder, "triggers", "activate-noawait ldconfig\n")
    return {
        "Package": LIBRARY,
        "Section": "libs",
        "Multi-Arch": "same",
        "Depends": needed_libc(prefix / "lib" / SHARED),
        "Description": f"{SUMMARY}, shared library\n{BYTES}",
    }


def dev_package(prefix, folder):
    lib, doc = (
        folder / "usr" / "lib" / MULTIARCH,
        folder / "usr" / "share" / "doc" / "libslotroute-dev",
    )
    put(prefix / "lib" / "libslotroute.a", lib / "libslotroute.a")
    link(SHARED, lib / "libslotroute.so")
    put(prefix / "include" / "slotroute.h", folder / "usr" / "include" / "slotroute.h")
    text = (prefix / "lib" / "pkgconfig" / "slotroute.pc").read_text()
    for name, value in {"prefix": "/usr", "libdir": f"${{prefix}}/lib/{MULTIARCH}"}.items():
        text = re.sub(f"^{name}=.*$", f"{name}={value}", text, flags=re.M)
    put(text, lib / "pkgconfig" / "slotroute.pc")
    put(ROOT / "docs" / "C.md", doc / "C.md")
    put(ROOT / "examples" / "split.c", doc / "examples" / "split.c")
    return {
        "Package": "libslotroute-dev",
        "Section": "libdevel",
        "Multi-Arch": "same",
        "Depends": f"{LIBRARY} (= {revision()}), libc6-dev",
        "Description": f"{SUMMARY}, files for development\n{BYTES} .\n"
        " This package has the header, the static library and an example.\n",
    }


def program_package(prefix, folder):
    doc = folder / "usr" / "share" / "doc" / "slotroute"
    put(prefix / "bin" / "slotroute", folder / "usr" / "bin" / "slotroute", 0o755)
    put_gz(
        prefix / "share" / "man" / "man1" / "slotroute.1",
        folder / "usr/share/man/man1/slotroute.1.gz",
    )
    put(ROOT / "docs" / "PROGRAM.md", doc / "PROGRAM.md")
    for example in ("two-nodes.txt", "six-nodes.txt", "commands.txt"):
        put(ROOT / "examples" / example, doc / "examples" / example)
    return {
        "Package": "slotroute",
        "Section": "database",
        "Depends": needed_libc(prefix / "bin" / "slotroute"),
        "Description": f"{SUMMARY}, program\n"
        " The program finds the node of a key by a map of slots, and splits commands\n"
        " over several keys into one part for each slot. Its code is proved against\n"
        " contracts. It needs a processor of x86-64-v2.\n",
    }


def proxy_package(prefix, folder):
    doc = folder / "usr" / "share" / "doc" / "slotroute-proxy"
    put(prefix / "bin" / "slotroute-proxy", folder / "usr" / "sbin" / "slotroute-proxy", 0o755)
    page = prefix / "share" / "man" / "man8" / "slotroute-proxy.8"
    put_gz(page, folder / "usr/share/man/man8/slotroute-proxy.8.gz")
    put(PACKAGING / "slotroute-proxy.conf", folder / "etc" / "slotroute-proxy.conf")
    unit = folder / "lib" / "systemd" / "system" / "slotroute-proxy.service"
    put(PACKAGING / "slotroute-proxy.service", unit)
    put(ROOT / "proxy" / "README.md", doc / "README.md")
    put(ROOT / "proxy" / "rates.svg", doc / "rates.svg")
    put(PACKAGING / "slotroute-proxy.logrotate", folder / "etc" / "logrotate.d" / "slotroute-proxy")
    control(folder, "conffiles", "/etc/logrotate.d/slotroute-proxy\n/etc/slotroute-proxy.conf\n")
    for script in ("postinst", "prerm", "postrm"):
        control(folder, script, (PACKAGING / f"slotroute-proxy.{script}").read_text(), 0o755)
    return {
        "Package": "slotroute-proxy",
        "Section": "database",
        "Depends": needed_libc(prefix / "bin" / "slotroute-proxy"),
        "Description": f"{SUMMARY}, proxy\n"
        " Clients speak to the proxy as to one Redis server, and need not know of\n"
        " slots. It splits commands over several slots, and makes one reply of the\n"
        " replies. It needs a processor of x86-64-v2. The service is installed, and not\n"
        " started.\n",
    }


def control(folder, name, text, mode=0o644):
    put(text, folder / "DEBIAN" / name, mode)


def put_gz(source, target):
    data = source.encode() if isinstance(source, str) else source.read_bytes()
    target.parent.mkdir(parents=True, exist_ok=True)
    target.write_bytes(gzip.compress(data, 9, mtime=0))


def needed_libc(binary):
    """The least version of the C library that has all that a file takes from it."""
    found = re.findall(r"\(?GLIBC_([0-9.]+)\)?", run("objdump", "-T", binary))
    least = max(found, key=lambda it: [int(number) for number in it.split(".")])
    needs = [f"libc6 (>= {least})"]
    if "libgcc_s.so.1" in run("objdump", "-p", binary):
        needs.append("libgcc-s1")
    return ", ".join(needs)


def finish(folder, fields, out):
    """Adds what each package has, and writes the package."""
    name = fields["Package"]
    doc = folder / "usr" / "share" / "doc" / name
    put(copyright_text(), doc / "copyright")
    put_gz(changelog(), doc / "changelog.Debian.gz")
    put_gz(ROOT / "CHANGELOG.md", doc / "changelog.gz")
    files = sorted(it for it in folder.rglob("*") if it.is_file() and not it.is_symlink())
    own = [it for it in files if it.relative_to(folder).parts[0] != "DEBIAN"]
    sums = [f"{hashlib.md5(it.read_bytes()).hexdigest()}  {it.relative_to(folder)}\n" for it in own]
    control(folder, "md5sums", "".join(sums))
    all_fields = {
        "Package": name,
        "Source": "slotroute",
        "Version": revision(),
        "Architecture": "amd64",
        "Maintainer": MAINTAINER,
        "Installed-Size": str(sum(-(-it.stat().st_size // 1024) for it in own)),
        "Priority": "optional",
        **{key: value for key, value in fields.items() if key != "Package"},
    }
    description = all_fields.pop("Description")
    lines = [f"{key}: {value}\n" for key, value in all_fields.items()]
    control(folder, "control", "".join(lines) + f"Description: {description}")
    settle(folder)
    words = ["--root-owner-group", "-Zxz", "-z9", "--threads-max=1", "--build"]
    run("dpkg-deb", *words, folder, out / f"{name}_{revision()}_amd64.deb")


def changelog():
    when = formatdate(epoch(), localtime=False)
    return (
        f"slotroute ({revision()}) stable; urgency=medium\n\n"
        f"  * Release {version()}. changelog.gz says what it has.\n\n -- {MAINTAINER}  {when}\n"
    )


def copyright_text():
    """The licence in the form that programs read."""
    licence = (ROOT / "LICENSE").read_text().split("\n\n")
    holders = [it.removeprefix("Copyright (c) ") for it in licence[1].splitlines()]
    terms = "\n\n".join(licence[2:]).strip()
    indented = "\n".join(f" {line}" if line.strip() else " ." for line in terms.splitlines())
    notice = "\n".join(
        f" {line}" if line else " ." for line in (ROOT / "NOTICE").read_text().splitlines()
    )
    names = "\n ".join(holders)
    return (
        "Format: https://www.debian.org/doc/packaging-manuals/copyright-format/1.0/\n"
        f"Upstream-Name: slotroute\nComment:\n{notice}\n\n"
        f"Files: *\nCopyright: {names}\nLicense: BSD-3-Clause\n{indented}\n"
    )
