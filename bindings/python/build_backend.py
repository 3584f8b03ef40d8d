"""Makes a wheel of the package and of the shared library, as pip asks for it (PEP 517).

The library is the one that the variable LR1_LIBRARY names, or else built/liblr1.so of the repository.
It is only for Linux on x86-64, and so is the wheel.
"""

import base64
import hashlib
import os
import pathlib
import zipfile

HERE = pathlib.Path(__file__).resolve().parent
TAG = "py3-none-linux_x86_64"


def project():
    """The lines `name = "text"` of pyproject.toml. (Python 3.9 and 3.10 have no reader of TOML.)"""
    lines = (HERE / "pyproject.toml").read_text(encoding="utf-8").split("[project]\n")[1].splitlines()
    rows = [it.partition(" = ") for it in lines]
    return {name: text.strip('"') for name, _, text in rows}


def library():
    """The path of the shared library."""
    path = pathlib.Path(os.environ.get("LR1_LIBRARY") or HERE.parent.parent / "built" / "liblr1.so")
    if not path.is_file():
        raise SystemExit(f"there is no {path}: run `tools/build --library`, or set LR1_LIBRARY")
    return path


def metadata(about):
    """The file METADATA of the wheel."""
    head = [
        "Metadata-Version: 2.1",
        f"Name: {about['name']}",
        f"Version: {about['version']}",
        f"Summary: {about['description']}",
        f"Requires-Python: {about['requires-python']}",
        "License: Apache-2.0 OR MIT",
        "Description-Content-Type: text/markdown",
    ]
    return "\n".join([*head, "", (HERE / "README.md").read_text(encoding="utf-8")])


def line_of(name, content):
    """The line of a file in RECORD."""
    digest = base64.urlsafe_b64encode(hashlib.sha256(content).digest()).rstrip(b"=").decode()
    return f"{name},sha256={digest},{len(content)}\n"


def build_wheel(wheel_directory, config_settings=None, metadata_directory=None):
    """Writes the wheel, and returns the name of its file."""
    about = project()
    name = f"{about['name']}-{about['version']}"
    sources = sorted((HERE / "src").glob("lr1/*.py")) + [HERE / "src/lr1/py.typed"]
    files = {f"lr1/{it.name}": it.read_bytes() for it in sources}
    files["lr1/liblr1.so"] = library().read_bytes()
    files[f"{name}.dist-info/METADATA"] = metadata(about).encode()
    wheel = f"Wheel-Version: 1.0\nGenerator: build_backend\nRoot-Is-Purelib: false\nTag: {TAG}\n"
    files[f"{name}.dist-info/WHEEL"] = wheel.encode()
    record = f"{name}.dist-info/RECORD"
    lines = [line_of(*it) for it in files.items()]
    files[record] = "".join([*lines, f"{record},,\n"]).encode()
    with zipfile.ZipFile(pathlib.Path(wheel_directory) / f"{name}-{TAG}.whl", "w", zipfile.ZIP_DEFLATED) as it:
        for path, content in files.items():
            it.writestr(path, content)
    return f"{name}-{TAG}.whl"


def build_sdist(sdist_directory, config_settings=None):
    """There is no distribution of sources, since the wheel needs the compiled library."""
    raise SystemExit("lr1 is only distributed as a wheel")
