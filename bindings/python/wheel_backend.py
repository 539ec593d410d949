"""Builds what pip installs, by the interface of PEP 517 and with the standard library alone: a package without code to compile needs no more, and pip works
without a network. The shared library goes in if it stands beside the package; the wheel is then one for this kind of machine."""
import base64
import hashlib
import re
import sysconfig
import tarfile
import zipfile
from pathlib import Path

HERE = Path(__file__).resolve().parent
LIBRARY = HERE / "terravisco" / "libterravisco.so"


def field(name):
    return re.search(rf'^{name} = "(.*)"$', (HERE / "pyproject.toml").read_text(), re.M).group(1)


def title():
    return f"{field('name')}-{field('version')}"


def package_files():
    files = [path for path in sorted((HERE / "terravisco").iterdir()) if path.suffix in (".py", ".typed")]
    return files + [LIBRARY] * LIBRARY.exists()


def tag():
    platform = re.sub(r"[-.]", "_", sysconfig.get_platform()) if LIBRARY.exists() else "any"
    return f"py3-none-{platform}"


def metadata():
    head = [
        "Metadata-Version: 2.1", f"Name: {field('name')}", f"Version: {field('version')}", f"Summary: {field('description')}",
        f"Requires-Python: {field('requires-python')}", "Description-Content-Type: text/markdown",
    ]
    return "\n".join(head) + "\n\n" + (HERE / "README.md").read_text()


def record(name, data):
    digest = base64.urlsafe_b64encode(hashlib.sha256(data).digest()).rstrip(b"=").decode()
    return f"{name},sha256={digest},{len(data)}"


def build_wheel(wheel_directory, config_settings=None, metadata_directory=None):
    info = title() + ".dist-info"
    purelib = "false" if LIBRARY.exists() else "true"
    contents = {f"terravisco/{path.name}": path.read_bytes() for path in package_files()}
    contents[f"{info}/METADATA"] = metadata().encode()
    contents[f"{info}/WHEEL"] = f"Wheel-Version: 1.0\nGenerator: wheel_backend\nRoot-Is-Purelib: {purelib}\nTag: {tag()}\n".encode()
    lines = [record(name, data) for name, data in contents.items()] + [f"{info}/RECORD,,"]
    contents[f"{info}/RECORD"] = ("\n".join(lines) + "\n").encode()
    name = f"{title()}-{tag()}.whl"
    with zipfile.ZipFile(Path(wheel_directory) / name, "w", zipfile.ZIP_DEFLATED) as wheel:
        for inside, data in contents.items():
            wheel.writestr(inside, data)
    return name


def build_sdist(sdist_directory, config_settings=None):
    name = title() + ".tar.gz"
    with tarfile.open(Path(sdist_directory) / name, "w:gz", format=tarfile.PAX_FORMAT) as archive:
        for path in [HERE / "pyproject.toml", HERE / "README.md", Path(__file__).resolve(), *package_files()]:
            archive.add(path, f"{title()}/{path.relative_to(HERE)}")
    return name
