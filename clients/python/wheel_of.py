"""What pip asks for, by PEP 517 and 660: the wheel of this folder, with the shared libraries of dist/ in it for both machines. It needs Python alone."""

from __future__ import annotations

import base64
import hashlib
import tomllib
import zipfile
from pathlib import Path
from typing import Any

HERE = Path(__file__).resolve().parent
DIST = HERE.parents[1] / "dist"
LIBRARIES = [f"{machine}/liblundaspro.so" for machine in ("x86-64", "aarch64")]
PROJECT: dict[str, Any] = tomllib.loads((HERE / "pyproject.toml").read_text())["project"]
STEM = f"{PROJECT['name']}-{PROJECT['version']}"
WHEEL = "Wheel-Version: 1.0\nGenerator: lundaspro\nRoot-Is-Purelib: true\nTag: py3-none-any\n"


def metadata() -> str:
    fields = [
        ("Metadata-Version", "2.1"),
        ("Name", PROJECT["name"]),
        ("Version", PROJECT["version"]),
        ("Summary", PROJECT["description"]),
        ("License", PROJECT["license"]["text"]),
        ("Requires-Python", PROJECT["requires-python"]),
        *(("Requires-Dist", needed) for needed in PROJECT["dependencies"]),
    ]
    return "".join(f"{name}: {value}\n" for name, value in fields)


def packed(folder: str, files: dict[str, bytes]) -> str:
    """The wheel of these files, with what says whose they are."""
    about = f"{STEM}.dist-info"
    files = files | {f"{about}/METADATA": metadata().encode(), f"{about}/WHEEL": WHEEL.encode()}
    record = ""
    for name, data in files.items():
        total = base64.urlsafe_b64encode(hashlib.sha256(data).digest()).rstrip(b"=").decode()
        record += f"{name},sha256={total},{len(data)}\n"
    files[f"{about}/RECORD"] = f"{record}{about}/RECORD,,\n".encode()
    wheel = f"{STEM}-py3-none-any.whl"
    with zipfile.ZipFile(Path(folder) / wheel, "w") as archive:
        for name, data in files.items():
            archive.writestr(zipfile.ZipInfo(name), data, zipfile.ZIP_DEFLATED)
    return wheel


def build_wheel(wheel_directory: str, config_settings: Any = None, metadata_directory: Any = None) -> str:
    sources = [path for path in sorted((HERE / "lundaspro").rglob("*")) if path.suffix == ".py" or path.name == "py.typed"]
    files = {path.relative_to(HERE).as_posix(): path.read_bytes() for path in sources}
    libraries = {f"lundaspro/dist/{name}": (DIST / name).read_bytes() for name in LIBRARIES}
    return packed(wheel_directory, files | libraries)


def build_editable(wheel_directory: str, config_settings: Any = None, metadata_directory: Any = None) -> str:
    # the folder itself, which finds dist/ in its clone
    return packed(wheel_directory, {"lundaspro.pth": f"{HERE}\n".encode()})
