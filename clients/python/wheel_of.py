"""Builds the client for pip from this folder alone: no network, and no other package to build with.

    pip install clients/python                                       # from the folder
    pip wheel -w DIR clients/python                                  # a file for elsewhere, and there
    pip install --no-index --find-links DIR pinkdrive                # by its name

pip calls these functions (PEP 517). The name, the version and the rest are in pyproject.toml.
"""

import base64
import hashlib
import io
import os
import re
import tarfile
import zipfile

HERE = os.path.dirname(os.path.abspath(__file__))


def project() -> dict:
    """The values of pyproject.toml, of which only texts are read."""
    with open(os.path.join(HERE, "pyproject.toml")) as file:
        return dict(re.findall(r'^([a-z-]+) = "(.*)"$', file.read(), re.MULTILINE))


def sources() -> list:
    """The files of the client and of the tools."""
    return ["pinkdrive.py", "pinkmirror.py", *sorted(f"pinkctl/{it}" for it in os.listdir(os.path.join(HERE, "pinkctl")) if it.endswith(".py"))]


def metadata() -> bytes:
    it = project()
    lines = ["Metadata-Version: 2.1", f"Name: {it['name']}", f"Version: {it['version']}"]
    lines += [f"Summary: {it['description']}", f"Requires-Python: {it['requires-python']}"]
    lines += ["Description-Content-Type: text/markdown", ""]
    with open(os.path.join(HERE, it["readme"])) as file:
        return ("\n".join(lines) + "\n" + file.read()).encode()


def info_files() -> dict:
    """The files that say what the wheel is, by name."""
    it = project()
    folder = f"{it['name']}-{it['version']}.dist-info"
    return {
        f"{folder}/METADATA": metadata(),
        f"{folder}/WHEEL": b"Wheel-Version: 1.0\nGenerator: wheel_of\nRoot-Is-Purelib: true\nTag: py3-none-any\n",
        f"{folder}/entry_points.txt": f"[console_scripts]\npinkctl = {it['pinkctl']}\n".encode(),
    }


def packed(files: dict, folder: str, name: str) -> str:
    """Writes a wheel of these files with the list of their sums, and returns its name."""
    record = f"{project()['name']}-{project()['version']}.dist-info/RECORD"
    lines = []
    with zipfile.ZipFile(os.path.join(folder, name), "w", zipfile.ZIP_DEFLATED) as out:
        for path, data in files.items():
            out.writestr(path, data)
            total = base64.urlsafe_b64encode(hashlib.sha256(data).digest()).rstrip(b"=").decode()
            lines.append(f"{path},sha256={total},{len(data)}\n")
        out.writestr(record, "".join(lines) + f"{record},,\n")
    return name


def wheel_name() -> str:
    return f"{project()['name']}-{project()['version']}-py3-none-any.whl"


def build_wheel(wheel_directory, config_settings=None, metadata_directory=None):
    files = {}
    for path in sources():
        with open(os.path.join(HERE, path), "rb") as file:
            files[path] = file.read()
    return packed({**files, **info_files()}, wheel_directory, wheel_name())


def build_editable(wheel_directory, config_settings=None, metadata_directory=None):
    """A wheel that names this folder: edits of the sources are seen at once."""
    files = {"pinkdrive.pth": (HERE + "\n").encode()}
    return packed({**files, **info_files()}, wheel_directory, wheel_name())


def build_sdist(sdist_directory, config_settings=None):
    it = project()
    root = f"{it['name']}-{it['version']}"
    with tarfile.open(os.path.join(sdist_directory, root + ".tar.gz"), "w:gz") as out:
        for path in ["pyproject.toml", "README.md", "wheel_of.py", *sources()]:
            out.add(os.path.join(HERE, path), f"{root}/{path}")
        data = metadata()
        head = tarfile.TarInfo(f"{root}/PKG-INFO")
        head.size = len(data)
        out.addfile(head, io.BytesIO(data))
    return root + ".tar.gz"
