"""Makes the wheel of this package for pip, by the standard library alone: an install needs no network and no other package.

PEP 517 and PEP 660 say what pip calls here.
"""
import base64
import hashlib
import os
import re
import zipfile

HERE = os.path.dirname(os.path.abspath(__file__))
PACKAGE = "slice_cake"


def build_wheel(wheel_directory, config_settings=None, metadata_directory=None):
    """A wheel that holds the package."""
    files = {}
    for name in sorted(os.listdir(os.path.join(HERE, PACKAGE))):
        path = os.path.join(HERE, PACKAGE, name)
        if os.path.isfile(path):
            with open(path, "rb") as file:
                files[f"{PACKAGE}/{name}"] = file.read()
    return wheel(wheel_directory, files)


def build_editable(wheel_directory, config_settings=None, metadata_directory=None):
    """A wheel that leads to this folder, so that an edit counts at once."""
    return wheel(wheel_directory, {f"{PACKAGE}.pth": (HERE + "\n").encode()})


def wheel(folder, files):
    """Writes the wheel of these files into the folder, and gives its name."""
    told = facts()
    about = f"{PACKAGE}-{told['version']}"
    lines = ["Metadata-Version: 2.1", f"Name: {told['name']}", f"Version: {told['version']}",
             f"Summary: {told['description']}", f"Requires-Python: {told['requires-python']}"]
    files[f"{about}.dist-info/METADATA"] = ("\n".join(lines) + "\n").encode()
    files[f"{about}.dist-info/WHEEL"] = b"Wheel-Version: 1.0\nGenerator: slice\nRoot-Is-Purelib: true\nTag: py3-none-any\n"
    record = "".join(f"{name},sha256={digest(content)},{len(content)}\n" for name, content in files.items())
    files[f"{about}.dist-info/RECORD"] = f"{record}{about}.dist-info/RECORD,,\n".encode()
    with zipfile.ZipFile(os.path.join(folder, f"{about}-py3-none-any.whl"), "w", zipfile.ZIP_DEFLATED) as out:
        for name, content in files.items():
            out.writestr(name, content)
    return f"{about}-py3-none-any.whl"


def facts():
    """The names and texts of pyproject.toml."""
    with open(os.path.join(HERE, "pyproject.toml"), encoding="utf-8") as file:
        return dict(re.findall(r'^([\w-]+) = "(.*)"$', file.read(), re.MULTILINE))


def digest(content):
    return base64.urlsafe_b64encode(hashlib.sha256(content).digest()).rstrip(b"=").decode()
