"""Builds the wheel, by the standard library alone: for pip (pyproject.toml names it), or

    python3 wheel_of_balsa.py [FOLDER]

The wheel holds the module and libbalsa.so: the one that BALSA_LIBRARY names, or what c/make-shared made.
"""

import base64
import hashlib
import os
import re
import sys
import sysconfig
import zipfile

HERE = os.path.dirname(os.path.abspath(__file__))
LIBRARY = os.path.join(HERE, "..", "target", "shared", "lib", "libbalsa.so")


def build_wheel(wheel_directory, config_settings=None, metadata_directory=None):
    """Makes the wheel in a folder; its name."""
    version = _field("version")
    platform = re.sub(r"[^\w]", "_", sysconfig.get_platform())
    tag = f"py3-none-{platform}"
    info = f"balsa-{version}.dist-info"
    files = dict(_module())
    files["balsa/libbalsa.so"] = _bytes(_library())
    files[f"{info}/METADATA"] = _metadata(version)
    files[f"{info}/WHEEL"] = f"Wheel-Version: 1.0\nGenerator: wheel_of_balsa\nRoot-Is-Purelib: false\nTag: {tag}\n".encode()
    record = f"{info}/RECORD"
    files[record] = _record(files, record)
    name = f"balsa-{version}-{tag}.whl"
    with zipfile.ZipFile(os.path.join(wheel_directory, name), "w", zipfile.ZIP_DEFLATED) as wheel:
        for path, content in files.items():
            # the same bytes whenever it is built
            entry = zipfile.ZipInfo(path, (1980, 1, 1, 0, 0, 0))
            entry.external_attr = 0o644 << 16
            wheel.writestr(entry, content, zipfile.ZIP_DEFLATED)
    return name


def _module():
    folder = os.path.join(HERE, "balsa")
    for name in sorted(os.listdir(folder)):
        if name.endswith(".py") or name == "py.typed":
            yield f"balsa/{name}", _bytes(os.path.join(folder, name))


def _library():
    path = os.environ.get("BALSA_LIBRARY") or LIBRARY
    if not os.path.exists(path):
        raise FileNotFoundError(f"{os.path.normpath(path)}: c/make-shared makes it")
    return path


def _metadata(version):
    lines = [
        "Metadata-Version: 2.1",
        "Name: balsa",
        f"Version: {version}",
        f"Summary: {_field('description')}",
        f"Requires-Python: {_field('requires-python')}",
        "Description-Content-Type: text/markdown",
        "",
        _bytes(os.path.join(HERE, "README.md")).decode("utf-8"),
    ]
    return "\n".join(lines).encode("utf-8")


def _record(files, record):
    lines = []
    for path, content in files.items():
        digest = base64.urlsafe_b64encode(hashlib.sha256(content).digest()).rstrip(b"=").decode("ascii")
        lines.append(f"{path},sha256={digest},{len(content)}\n")
    return "".join(lines + [f"{record},,\n"]).encode("ascii")


def _field(name):
    """A field of pyproject.toml (the standard library reads that format from Python 3.11 on only)."""
    text = _bytes(os.path.join(HERE, "pyproject.toml")).decode("utf-8")
    return re.search(rf'^{name} = "(.*)"$', text, re.M).group(1)


def _bytes(path):
    with open(path, "rb") as file:
        return file.read()


if __name__ == "__main__":
    print(build_wheel(sys.argv[1] if len(sys.argv) > 1 else "."))
