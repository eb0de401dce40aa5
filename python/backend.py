"""Makes the wheel of tigmavresh, for pip (PEP 517): `pip install ./python` calls build_wheel.

A wheel is a zip of the module and of some notes on it, so this needs no other package and no network. Three files of the
module are made here: libscp.so of the proved archive; _rules.py, the refusals' numbers, names and words, from the Rust code's table;
and _version.py, of the tool's version.

`python3 python/backend.py FOLDER` writes the wheel without pip.
"""

from __future__ import annotations

import base64
import hashlib
import platform
import re
import subprocess
import sys
import tempfile
import zipfile
from pathlib import Path
from typing import Any, Optional

HERE = Path(__file__).resolve().parent
RULES = HERE.parent / "rust/scp/src/refusal.rs"
TOOL = HERE.parent / "rust/tool/Cargo.toml"


def version() -> str:
    """The tool's version, which is the module's."""
    found = re.search(r'^version = "(.*)"$', TOOL.read_text(), re.MULTILINE)
    if not found:
        raise SystemExit(f"{TOOL}: the tool's version is not found there")
    return found[1]


NAME, VERSION, TAG = "tigmavresh", version(), "py3-none-linux_x86_64"
NOTES = f"{NAME}-{VERSION}.dist-info"

METADATA = f"""\
Metadata-Version: 2.1
Name: {NAME}
Version: {VERSION}
Summary: Opens, checks and writes SCP-ECG records by a proved library
Requires-Python: >=3.9
"""

WHEEL = f"""\
Wheel-Version: 1.0
Generator: {NAME}
Root-Is-Purelib: false
Tag: {TAG}
"""


RULES_MODULE = '''\
"""The rules that a refusal can be of, and what each asks."""

from enum import IntEnum


class Rule(IntEnum):
    """The rules, each with its number: `Refused.number` is one of these."""

{members}

RULES = {{
{words}}}
'''


def build_wheel(
    wheel_directory: str, config_settings: Optional[dict[str, Any]] = None, metadata_directory: Optional[str] = None
) -> str:
    """pip calls this: it makes the wheel in a folder, and answers its name."""
    if platform.machine() != "x86_64":
        raise SystemExit(f"the library is for x86-64, and this machine is {platform.machine()}")
    return make_wheel(Path(wheel_directory))


def make_wheel(folder: Path) -> str:
    """Makes the wheel, on any machine that has the compiler for it."""
    sources = [*sorted((HERE / NAME).glob("*.py")), HERE / NAME / "py.typed"]
    files = {f"{NAME}/{path.name}": path.read_bytes() for path in sources}
    files[f"{NAME}/_rules.py"] = rules().encode()
    files[f"{NAME}/_version.py"] = f'"""The version of the module and of the tool."""\n\n__version__ = {VERSION!r}\n'.encode()
    files[f"{NAME}/libscp.so"] = library()
    files[f"{NOTES}/METADATA"] = METADATA.encode()
    files[f"{NOTES}/WHEEL"] = WHEEL.encode()
    files[f"{NOTES}/RECORD"] = listed(files).encode()
    name = f"{NAME}-{VERSION}-{TAG}.whl"
    with zipfile.ZipFile(folder / name, "w") as wheel:
        for path, content in files.items():
            wheel.writestr(zipfile.ZipInfo(path), content, zipfile.ZIP_DEFLATED)  # dated 1980: equal for equal files
    return name


def library() -> bytes:
    """The proved library as a shared object."""
    with tempfile.TemporaryDirectory() as folder:
        made = Path(folder) / "libscp.so"
        subprocess.run([HERE / "library", made], check=True)
        return made.read_bytes()


def rules() -> str:
    """The module of the refusals' numbers, names and words, taken from the table of the Rust code."""
    rows = re.findall(r'^ +([A-Z0-9_]+) = (\d+) \{$[^}]*?^ +rule: "(.*)",$', RULES.read_text(), re.MULTILINE)
    if not rows:
        raise SystemExit(f"{RULES}: the table of refusals is not found there")
    members = "".join(f"    {name} = {number}\n" for name, number, _ in rows)
    words = "".join(f"    Rule.{name}: {rule!r},\n" for name, _, rule in rows)
    return RULES_MODULE.format(members=members, words=words)


def listed(files: dict[str, bytes]) -> str:
    """The wheel's list of its files, with their hashes and lengths; the list itself has neither."""
    lines = []
    for path, content in files.items():
        digest = base64.urlsafe_b64encode(hashlib.sha256(content).digest()).decode().rstrip("=")
        lines.append(f"{path},sha256={digest},{len(content)}\n")
    return "".join(lines) + f"{NOTES}/RECORD,,\n"


if __name__ == "__main__":
    if len(sys.argv) != 2:
        sys.exit(__doc__)
    print(make_wheel(Path(sys.argv[1])))
