"""Makes the wheel and the source archive of this folder with the standard library alone, so that it installs without a network.

It is the build backend of pyproject.toml, by the hooks of PEP 517."""
import base64
import hashlib
import os
import re
import tarfile
import zipfile

HERE = os.path.dirname(os.path.abspath(__file__))
SOURCES = ["pyproject.toml", "README.md", "wheel_maker.py"]


def project():
    """Name, version, summary and least Python of pyproject.toml, which no module of an older Python reads."""
    with open(os.path.join(HERE, "pyproject.toml")) as file:
        text = file.read()
    return [re.search(rf'(?m)^{key} = "(.*)"$', text)[1] for key in ("name", "version", "description", "requires-python")]


def metadata():
    name, version, summary, python = project()
    return f"Metadata-Version: 2.1\nName: {name}\nVersion: {version}\nSummary: {summary}\nRequires-Python: {python}\n"


def package():
    return sorted(f"pma/{file}" for file in os.listdir(os.path.join(HERE, "pma")) if file.endswith((".py", ".typed")))


def build_wheel(wheel_directory, config_settings=None, metadata_directory=None):
    name, version, _, _ = project()
    info = f"{name}-{version}.dist-info"
    files = {}
    for file in package():
        with open(os.path.join(HERE, file), "rb") as source:
            files[file] = source.read()
    files[f"{info}/METADATA"] = metadata().encode()
    files[f"{info}/WHEEL"] = b"Wheel-Version: 1.0\nGenerator: wheel_maker\nRoot-Is-Purelib: true\nTag: py3-none-any\n"
    lines = [f"{file},{digest(content)},{len(content)}\n" for file, content in files.items()]
    files[f"{info}/RECORD"] = "".join(lines + [f"{info}/RECORD,,\n"]).encode()
    wheel = f"{name}-{version}-py3-none-any.whl"
    with zipfile.ZipFile(os.path.join(wheel_directory, wheel), "w", zipfile.ZIP_DEFLATED) as out:
        for file, content in files.items():
            out.writestr(file, content)
    return wheel


def digest(content):
    return "sha256=" + base64.urlsafe_b64encode(hashlib.sha256(content).digest()).decode().rstrip("=")


def build_sdist(sdist_directory, config_settings=None):
    name, version, _, _ = project()
    archive = f"{name}-{version}.tar.gz"
    with tarfile.open(os.path.join(sdist_directory, archive), "w:gz", format=tarfile.PAX_FORMAT) as out:
        for file in SOURCES + package():
            out.add(os.path.join(HERE, file), f"{name}-{version}/{file}")
        info = os.path.join(sdist_directory, "PKG-INFO")
        with open(info, "w") as file:
            file.write(metadata())
        out.add(info, f"{name}-{version}/PKG-INFO")
        os.unlink(info)
    return archive
