"""The archive of the programs and the library, the wheel, and the crate."""

import lzma
import os
import shutil
import tarfile

from common import (
    PACKAGING,
    PYTHON,
    ROOT,
    TARGET,
    Unfit,
    copy_tracked,
    epoch,
    note,
    put,
    run,
    version,
)
from programs import SHARED

PAGES = ["CHANGELOG.md", "LICENSE", "NOTICE", "docs/C.md", "docs/PROGRAM.md"]
EXAMPLES = ["split.c", "two-nodes.txt", "six-nodes.txt", "commands.txt", "slots-to-map"]


def make_archive(prefix, room, out):
    """One folder that can stand anywhere."""
    name = f"slotroute-{version()}-{TARGET}"
    folder = room / "archive" / name
    shutil.copytree(prefix, folder, symlinks=True)
    doc = folder / "share" / "doc" / "slotroute"
    for page in PAGES:
        put(ROOT / page, doc / os.path.basename(page))
    put(ROOT / "proxy" / "README.md", doc / "PROXY.md")
    put(ROOT / "proxy" / "rates.svg", doc / "rates.svg")
    for example in EXAMPLES:
        put(
            ROOT / "examples" / example,
            doc / "examples" / example,
            0o755 if "." not in example else 0o644,
        )
    for file in ("slotroute-proxy.conf", "slotroute-proxy.logrotate", "slotroute-proxy.service"):
        put(PACKAGING / file, doc / "examples" / file)
    write_tar(folder, out / f"{name}.tar.xz")


def write_tar(folder, target):
    """A tar file in which nothing depends on when, where or by whom it is made."""

    def plain(member):
        member.uid = member.gid = 0
        member.uname = member.gname = "root"
        member.mtime = epoch()
        is_run = member.isdir() or member.issym() or member.mode & 0o100
        member.mode = 0o755 if is_run else 0o644
        return member

    with lzma.open(target, "wb", preset=9 | lzma.PRESET_EXTREME) as file:
        with tarfile.open(fileobj=file, mode="w", format=tarfile.USTAR_FORMAT) as tar:
            tar.add(folder, folder.name, recursive=False, filter=plain)
            for path in sorted(folder.rglob("*")):
                tar.add(path, str(path.relative_to(folder.parent)), recursive=False, filter=plain)


def make_wheel(prefix, room, out):
    note("making the wheel")
    folder = room / "wheel"
    copy_tracked("python", folder)
    for name in ("LICENSE", "NOTICE"):
        put(ROOT / name, folder / name)
    words = "-m pip wheel --quiet --no-index --no-deps --no-build-isolation --no-cache-dir".split()
    run(
        PYTHON,
        *words,
        "--wheel-dir",
        out,
        folder,
        env={**os.environ, "SLOTROUTE_PREFIX": str(prefix)},
    )
    if not (out / f"slotroute-{version()}-cp310-abi3-manylinux_2_17_x86_64.whl").exists():
        raise Unfit("the wheel has no module _turn: gcc and Python's headers have to be there")


def make_crate(prefix, room, out):
    note("making the crate")
    folder = room / "crate"
    copy_tracked("rust", folder)
    put(prefix / "lib" / "libslotroute.a", folder / "lib" / "libslotroute.a")
    for name in ("LICENSE", "NOTICE"):
        put(ROOT / name, folder / name)
    target = room / "target"
    words = ["--quiet", "--offline", "--no-verify", "--allow-dirty", "--target-dir", target]
    run("cargo", "package", *words, "--manifest-path", folder / "Cargo.toml", cwd=folder)
    name = f"slotroute-{version()}.crate"
    put(target / "package" / name, out / name)


def write_prebuilt(prefix, folder):
    """What ./slotroute, the proxy, the wheel and the crate take where no prefix is named. It has no
    symbolic link, since a tree may be copied by what keeps none: so the name libslotroute.so, which
    a linker looks for first, is not there."""
    for name in (
        "include/slotroute.h",
        "lib/libslotroute.a",
        f"lib/{SHARED}",
        "lib/pkgconfig/slotroute.pc",
    ):
        put(prefix / name, folder / name)
    put(prefix / "bin" / "slotroute", folder / "bin" / "slotroute", 0o755)
