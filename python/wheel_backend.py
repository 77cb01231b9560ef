"""Builds the wheel that pip installs, by the standard library alone (PEP 517 and PEP 660).

A wheel is an archive of the package, of the proved library beside it, and of some files that name
them; and of the man page and completions, which the package writes. The library is x86-64 code for
Linux, and the wheel's name says so. The wheel of pip install -e has the place of the package
instead, so that an edit of it counts at once.
"""

from __future__ import annotations

import base64
import glob
import hashlib
import os
import re
import sys
import zipfile

_HERE = os.path.dirname(os.path.abspath(__file__))
_LIBRARY = "rrp/librrp.so"
_TAG = "py3-none-linux_x86_64"


def build_wheel(wheel_directory: str, config_settings=None, metadata_directory=None) -> str:
    """Writes the wheel into a folder and returns its name."""
    if not os.path.isfile(os.path.join(_HERE, _LIBRARY)):
        sys.exit("python/rrp/librrp.so is missing: run ./build at the root of the repository first")
    files = {path: _content(path) for path in _paths()}
    return _write_wheel(wheel_directory, {**files, **shared_files()})


def build_editable(wheel_directory: str, config_settings=None, metadata_directory=None) -> str:
    """Writes a wheel that leads to the package where it is, and returns its name. The command says
    so where the library is not built yet."""
    return _write_wheel(wheel_directory, {"rrp-editable.pth": os.fsencode(f"{_HERE}\n")})


def _write_wheel(wheel_directory: str, files: dict[str, bytes]) -> str:
    """Writes a wheel of these files, and of those that describe it."""
    project = _project()
    about = f"{project['name']}-{project['version']}"
    for name, text in _about(project).items():
        files[f"{about}.dist-info/{name}"] = text.encode()
    record = f"{about}.dist-info/RECORD"
    lines = [f"{name},sha256={_digest(data)},{len(data)}\n" for name, data in files.items()]
    files[record] = "".join([*lines, f"{record},,\n"]).encode()
    wheel = f"{about}-{_TAG}.whl"
    path = os.path.join(wheel_directory, wheel)
    with zipfile.ZipFile(path, "w", zipfile.ZIP_DEFLATED) as archive:
        for name, data in files.items():
            archive.writestr(name, data)
    return wheel


def build_sdist(sdist_directory: str, config_settings=None) -> str:
    """There is none: the library is built at the root of the repository."""
    sys.exit("no source archive is made: install from the repository, with pip install ./python")


def _project() -> dict[str, str]:
    """What pyproject.toml states, but for lists."""
    with open(os.path.join(_HERE, "pyproject.toml"), encoding="utf-8") as file:
        return dict(re.findall(r'^([\w-]+) = "(.*)"$', file.read(), re.M))


def _paths() -> list[str]:
    """The files of the package."""
    modules = glob.glob(os.path.join(_HERE, "rrp", "**", "*.py"), recursive=True)
    return sorted([*(os.path.relpath(path, _HERE) for path in modules), "rrp/py.typed", _LIBRARY])


def shared_files() -> dict[str, bytes]:
    """The man page and the completions, by their places below the folder that pip installs to."""
    from rrp.command import all_commands, man_page
    from rrp.completion import bash, zsh

    project = _project()
    folder = f"{project['name']}-{project['version']}.data/data/share"
    texts = {
        "man/man1/rrp.1": man_page(),
        "bash-completion/completions/rrp": bash(all_commands()),
        "zsh/site-functions/_rrp": zsh(all_commands()),
    }
    return {f"{folder}/{name}": text.encode() for name, text in texts.items()}


def _content(path: str) -> bytes:
    with open(os.path.join(_HERE, path), "rb") as file:
        return file.read()


def _about(project: dict[str, str]) -> dict[str, str]:
    """The files that describe the wheel."""
    metadata = {
        "Metadata-Version": "2.1",
        "Name": project["name"],
        "Version": project["version"],
        "Summary": project["description"],
        "Requires-Python": project["requires-python"],
    }
    wheel = {
        "Wheel-Version": "1.0",
        "Generator": "wheel_backend",
        "Root-Is-Purelib": "false",
        "Tag": _TAG,
    }
    return {
        "METADATA": _headers(metadata),
        "WHEEL": _headers(wheel),
        "entry_points.txt": f"[console_scripts]\nrrp = {project['rrp']}\n",
    }


def _headers(values: dict[str, str]) -> str:
    return "".join(f"{name}: {value}\n" for name, value in values.items())


def _digest(data: bytes) -> str:
    """A file's digest as a wheel's record has it."""
    return base64.urlsafe_b64encode(hashlib.sha256(data).digest()).rstrip(b"=").decode()
