"""Builds the wheel of this folder as pip asks for it (PEP 517): the files of tsumego/ and what PEP 427 wants beside them."""
import base64
import hashlib
import os
import re
import zipfile

HERE = os.path.dirname(os.path.abspath(__file__))
with open(os.path.join(HERE, "pyproject.toml"), encoding="utf-8") as text:
    PROJECT = dict(re.findall(r'^([a-z-]+) = "(.*)"$', text.read(), re.M))
NAME, VERSION = PROJECT["name"], PROJECT["version"]
INFO = f"{NAME}-{VERSION}.dist-info"
SCRIPTS = {key: value for key, value in PROJECT.items() if value.endswith(":main")}


def metadata():
    """The files of the .dist-info folder, but for RECORD."""
    return {
        "METADATA": f"Metadata-Version: 2.1\nName: {NAME}\nVersion: {VERSION}\nSummary: {PROJECT['description']}\nRequires-Python: {PROJECT['requires-python']}\n",
        "WHEEL": "Wheel-Version: 1.0\nGenerator: build_wheel_of_files\nRoot-Is-Purelib: true\nTag: py3-none-any\n",
        "entry_points.txt": "[console_scripts]\n" + "".join(f"{key} = {value}\n" for key, value in SCRIPTS.items()),
    }


def build_wheel(wheel_directory, config_settings=None, metadata_directory=None):
    """Writes the wheel and returns its name."""
    files = {f"{INFO}/{name}": text.encode() for name, text in metadata().items()}
    package = os.path.join(HERE, NAME)
    for folder in ("", "page/"):
        for name in sorted(os.listdir(os.path.join(package, folder))):
            if name.endswith((".py", ".typed", ".html", ".css", ".js", ".svg")):
                with open(os.path.join(package, folder, name), "rb") as data:
                    files[f"{NAME}/{folder}{name}"] = data.read()
    record = ""
    for name, data in files.items():
        digest = base64.urlsafe_b64encode(hashlib.sha256(data).digest()).rstrip(b"=").decode()
        record += f"{name},sha256={digest},{len(data)}\n"
    files[f"{INFO}/RECORD"] = f"{record}{INFO}/RECORD,,\n".encode()
    wheel = f"{NAME}-{VERSION}-py3-none-any.whl"
    with zipfile.ZipFile(os.path.join(wheel_directory, wheel), "w", zipfile.ZIP_DEFLATED) as out:
        for name, data in files.items():
            out.writestr(zipfile.ZipInfo(name, (1980, 1, 1, 0, 0, 0)), data)
    return wheel
