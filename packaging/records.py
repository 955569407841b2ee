"""What a release says of itself: where it comes from, what is inside, and its checksums."""

import hashlib
import json
import os
import re
import uuid
from datetime import datetime, timezone
from pathlib import Path

from common import PYTHON, ROOT, Unfit, date, epoch, first_line, put, run, version

PASSED = ROOT / "tests" / "out" / "passed"
PROVENANCE = """\
What release {version} was made of, and how the same bytes are made again.

{facts}
In a checkout whose tools/tree-sum prints the sum of `tree`, with this kit and these tools:

    tests/run
    tools/release {words}OUT
    tools/release {words}--prebuilt FOLDER
"""
# A folder of some machine, as no file may name it.
MACHINE = re.compile(rb"/(?:home|root|build|work|tmp|opt|srv|mnt)/[\w.+-]+")


def kit_folder():
    return Path(run("rt", "doc").strip()).parent


def gate_counts():
    """The counts of the gate's last run, if it was green and the tree is the same."""
    facts = facts_of(PASSED) if PASSED.exists() else {}
    if facts.get("tree") != [run(ROOT / "tools" / "tree-sum").strip()]:
        raise Unfit("the gate has not passed with the tree as it is: run tests/run")
    if facts.get("kit") != [first_line("rt", "version")]:
        raise Unfit("the gate passed with another kit: run tests/run")
    return facts["gate"][0]


def tools():
    """The tools that decide bytes, each with its version."""
    clang = kit_folder() / "toolchain" / "bin" / "clang"
    modules = (
        "import setuptools, pip, wheel; print(*(it.__version__ for it in (pip, setuptools, wheel)))"
    )
    pip, setuptools, wheel = run(PYTHON, "-W", "ignore", "-c", modules).split()
    lines = [
        first_line(it, "--version")
        for it in (clang, "cc", "ld", "make", "cargo", "help2man", PYTHON)
    ]
    lines += [f"pip {pip}", f"setuptools {setuptools}", f"wheel {wheel}"]
    return [*lines, *(first_line(it, "--version") for it in ("dpkg-deb", "xz", "ldd"))]


def provenance(state, gate):
    sums = {
        it: run(ROOT / "tools" / "sources-sum", crate).strip()
        for it, crate in (("program-sources", "slotroute"), ("library-sources", "slotroute_c"))
    }
    facts = {
        "version": version(),
        "date": date(),
        "state": state,
        "tree": run(ROOT / "tools" / "tree-sum").strip(),
        **sums,
        "kit": first_line("rt", "version"),
        "gate": gate,
        "epoch": str(epoch()),
    }
    lines = [f"{name}: {value}\n" for name, value in facts.items()]
    lines += [f"tool: {it}\n" for it in tools()]
    words = "" if state == "proved" else "--unproved "
    return PROVENANCE.format(version=version(), facts="".join(lines), words=words)


def facts_of(path):
    """The lines `name: value` of a file, as a list of values for each name."""
    facts = {}
    for line in Path(path).read_text(encoding="utf-8").splitlines():
        name, colon, value = line.partition(": ")
        if colon and " " not in name:
            facts.setdefault(name, []).append(value)
    return facts


def digest(kind, path):
    return hashlib.new(kind, path.read_bytes()).hexdigest()


def write_sums(out):
    files = sorted(it for it in out.iterdir() if it.name != "SHA256SUMS")
    put("".join(f"{digest('sha256', it)}  {it.name}\n" for it in files), out / "SHA256SUMS")


def write_spdx(prefix, out):
    """What is inside, in the form SPDX 2.3."""
    files = sorted(it for it in prefix.rglob("*") if it.is_file() and not it.is_symlink())
    sums = "".join(digest("sha256", it) for it in files)
    name = f"slotroute-{version()}"
    document = {
        "spdxVersion": "SPDX-2.3",
        "dataLicense": "CC0-1.0",
        "SPDXID": "SPDXRef-DOCUMENT",
        "name": name,
        "documentNamespace": f"urn:uuid:{uuid.uuid5(uuid.NAMESPACE_OID, sums)}",
        "creationInfo": {
            "created": datetime.fromtimestamp(epoch(), timezone.utc).strftime("%Y-%m-%dT%H:%M:%SZ"),
            "creators": [f"Tool: tools/release-{version()}"],
        },
        "packages": packages(files),
        "files": [spdx_file(prefix, it) for it in files],
        "relationships": relationships(prefix, files),
    }
    put(json.dumps(document, indent=1) + "\n", out / f"{name}.spdx.json")


def packages(files):
    """The release, what it was ported from, and the kit. Only the release has files here."""
    kit, kit_version = first_line("rt", "version").split(" ", 1)
    sums = "".join(sorted(digest("sha1", it) for it in files))
    code = {"packageVerificationCodeValue": hashlib.sha1(sums.encode()).hexdigest()}
    own = {"filesAnalyzed": True, "packageVerificationCode": code}
    return [
        package("slotroute", version(), "BSD-3-Clause", copyrights()) | own,
        package("redis", "1.7.0", "BSD-3-Clause", "Copyright (c) 2022, redis-rs contributors"),
        package(kit, kit_version, "NOASSERTION", "NOASSERTION"),
    ]


def copyrights():
    return "\n".join(
        re.findall(r"^.*copyright \(c\).*$", (ROOT / "LICENSE").read_text(), re.M | re.I)
    )


def package(name, its_version, licence, copyright_text):
    return {
        "name": name,
        "SPDXID": f"SPDXRef-{name}",
        "versionInfo": its_version,
        "downloadLocation": "NOASSERTION",
        "filesAnalyzed": False,
        "licenseConcluded": licence,
        "licenseDeclared": licence,
        "copyrightText": copyright_text,
    }


def file_id(prefix, path):
    return "SPDXRef-" + re.sub(r"[^A-Za-z0-9.]", "-", str(path.relative_to(prefix)))


def spdx_file(prefix, path):
    return {
        "fileName": f"./{path.relative_to(prefix)}",
        "SPDXID": file_id(prefix, path),
        "checksums": [
            {"algorithm": kind.upper(), "checksumValue": digest(kind, path)}
            for kind in ("sha1", "sha256")
        ],
        "licenseConcluded": "BSD-3-Clause",
        "copyrightText": copyrights(),
    }


def relationships(prefix, files):
    """The release has the files, comes from redis-rs, and has parts of the kit inside."""
    kit = first_line("rt", "version").split(" ", 1)[0]
    pairs = [
        ("SPDXRef-DOCUMENT", "DESCRIBES", "SPDXRef-slotroute"),
        ("SPDXRef-slotroute", "DESCENDANT_OF", "SPDXRef-redis"),
        ("SPDXRef-slotroute", "STATIC_LINK", f"SPDXRef-{kit}"),
        *(("SPDXRef-slotroute", "CONTAINS", file_id(prefix, it)) for it in files),
    ]
    names = ("spdxElementId", "relationshipType", "relatedSpdxElement")
    return [dict(zip(names, it)) for it in pairs]


def check_strings(prefix, room):
    """Refuses a file that names a folder of this machine."""
    folders = {
        str(it).encode() for it in (ROOT, room, kit_folder(), Path.home()) if len(it.parts) > 2
    }
    for path in prefix.rglob("*"):
        if path.is_symlink() or not path.is_file():
            continue
        data = path.read_bytes()
        named = [it for it in folders if it in data] + MACHINE.findall(data)
        if named:
            name = os.fsdecode(named[0])
            raise Unfit(f"{path.relative_to(prefix)} names a folder of this machine: {name}")
