"""Makes a wheel of the Python package with the shared library in it, and prints its path.

    wheel.py PACKAGE LIBRARY FOLDER VERSION

PACKAGE is the folder of pyproject.toml. VERSION is what the wheel tells of the library in it, as 1.0.0+unproved. Nothing but Python is needed. Two wheels of the same files are the same bytes.
"""

from __future__ import annotations

import base64
import hashlib
import platform
import sys
import zipfile
from pathlib import Path

try:
    import tomllib
except ImportError:  # before Python 3.11
    from pip._vendor import tomli as tomllib


def metadata(project: dict, version: str, readme: str) -> str:
    """The file METADATA of a wheel, from what pyproject.toml tells of the project."""
    lines = [
        "Metadata-Version: 2.1",
        f"Name: {project['name']}",
        f"Version: {version}",
        f"Summary: {project['description']}",
        f"Requires-Python: {project['requires-python']}",
    ]
    lines += [f"Classifier: {word}" for word in project.get("classifiers", [])]
    lines += [f"Requires-Dist: {word}" for word in project.get("dependencies", [])]
    for extra, needed in project.get("optional-dependencies", {}).items():
        lines.append(f"Provides-Extra: {extra}")
        lines += [f'Requires-Dist: {word}; extra == "{extra}"' for word in needed]
    return "\n".join([*lines, "Description-Content-Type: text/markdown", "", readme])


def main(package: Path, library: Path, folder: Path, version: str) -> Path:
    """Writes the wheel into the folder, and answers its path."""
    project = tomllib.loads((package / "pyproject.toml").read_text())["project"]
    name = project["name"]
    tag = f"py3-none-linux_{platform.machine()}"
    info = f"{name}-{version}.dist-info"
    source = package / "src" / name
    files = {
        f"{name}/{path.relative_to(source)}": path.read_bytes()
        for path in sorted(source.rglob("*"))
        if path.is_file() and "__pycache__" not in path.parts and path.suffix != ".so"
    }
    files[f"{name}/{library.name}"] = library.read_bytes()
    files[f"{info}/METADATA"] = metadata(project, version, (package / project["readme"]).read_text()).encode()
    files[f"{info}/WHEEL"] = f"Wheel-Version: 1.0\nGenerator: trowelheath\nRoot-Is-Purelib: false\nTag: {tag}\n".encode()
    record = f"{info}/RECORD"
    lines = []
    for path, content in files.items():
        digest = base64.urlsafe_b64encode(hashlib.sha256(content).digest()).rstrip(b"=").decode()
        lines.append(f"{path},sha256={digest},{len(content)}")
    files[record] = "\n".join([*lines, f"{record},,", ""]).encode()
    wheel = folder / f"{name}-{version}-{tag}.whl"
    with zipfile.ZipFile(wheel, "w", zipfile.ZIP_DEFLATED) as archive:
        for path, content in files.items():
            entry = zipfile.ZipInfo(path, (1980, 1, 1, 0, 0, 0))
            entry.external_attr = (0o755 if path.endswith(".so") else 0o644) << 16
            entry.compress_type = zipfile.ZIP_DEFLATED
            archive.writestr(entry, content)
    return wheel


if __name__ == "__main__":
    if len(sys.argv) != 5:
        sys.exit(__doc__)
    print(main(*map(Path, sys.argv[1:4]), sys.argv[4]))
