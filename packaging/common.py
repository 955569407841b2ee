"""What the makers of a release share: the tree, commands, and files that are the same each time."""

import os
import re
import shutil
import subprocess
import sys
from datetime import datetime, timezone
from pathlib import Path

ROOT = Path(__file__).resolve().parent.parent
PACKAGING = ROOT / "packaging"
HEADER = ROOT / "crates" / "slotroute_c" / "include" / "slotroute.h"
PYTHON = "/usr/bin/python3"  # Debian's own, which has Debian's setuptools and wheel
TARGET = "x86_64-linux"
SUMMARY = "Routing for Redis Cluster"


class Unfit(Exception):
    """Why no release is made."""


def run(*words, **how):
    """Runs a command, and returns what it prints."""
    done = subprocess.run([str(it) for it in words], text=True, capture_output=True, **how)
    if done.returncode:
        raise Unfit(f"{words[0]} failed:\n{done.stdout[-2000:]}{done.stderr[-2000:]}")
    return done.stdout


def first_line(*words):
    return run(*words).splitlines()[0]


def version():
    """The version, which the header, the change log, the wheel and the crate have to agree on."""
    found = {
        HEADER: r'^#define SLOTROUTE_VERSION "(.*)"$',
        ROOT / "CHANGELOG.md": r"^## (\d\S*) ",
        ROOT / "python" / "pyproject.toml": r'^version = "(.*)"$',
        ROOT / "rust" / "Cargo.toml": r'^version = "(.*)"$',
    }
    versions = {re.search(form, path.read_text(), re.M)[1] for path, form in found.items()}
    if len(versions) > 1:
        raise Unfit(f"the versions differ: {', '.join(sorted(versions))}")
    return versions.pop()


def so_version():
    """The number in the name of the shared library: 0.1 for 0.1.0."""
    return version().rpartition(".")[0]


def date():
    """The date of the version in the change log."""
    found = re.search(r"^## \S+ \((\d{4}-\d\d-\d\d)\)$", (ROOT / "CHANGELOG.md").read_text(), re.M)
    if not found:
        raise Unfit("the first version in CHANGELOG.md has no date, as `## 0.1.0 (2026-11-29)`")
    return found[1]


def set_epoch():
    """Sets the time that all files get: midnight of the release, or SOURCE_DATE_EPOCH."""
    midnight = datetime.fromisoformat(date()).replace(tzinfo=timezone.utc)
    os.environ.setdefault("SOURCE_DATE_EPOCH", str(int(midnight.timestamp())))
    os.environ.update(LC_ALL="C.UTF-8", TZ="UTC")
    os.umask(0o022)


def epoch():
    return int(os.environ["SOURCE_DATE_EPOCH"])


def put(source, target, mode=0o644):
    """Copies a file, or writes a text, with its mode. Folders are made."""
    target.parent.mkdir(parents=True, exist_ok=True)
    if isinstance(source, str):
        target.write_text(source, encoding="utf-8")
    else:
        shutil.copyfile(source, target)
    target.chmod(mode)


def link(name, target):
    target.parent.mkdir(parents=True, exist_ok=True)
    target.symlink_to(name)


def settle(folder):
    """Gives all that is in a folder the time of the release, and folders their mode."""
    for path in [folder, *folder.rglob("*")]:
        if path.is_dir() and not path.is_symlink():
            path.chmod(0o755)
        os.utime(path, (epoch(), epoch()), follow_symlinks=False)


def copy_tracked(folder, target):
    """Copies the files of a folder that git has, which are those of the gate's note."""
    for name in run("git", "ls-files", "-z", "--", folder, cwd=ROOT).split("\0"):
        if name and (ROOT / name).exists():
            mode = 0o755 if os.access(ROOT / name, os.X_OK) else 0o644
            put(ROOT / name, target / Path(name).relative_to(folder), mode)


def note(text):
    print(f"release: {text}", file=sys.stderr)
