"""Builds the wheel and the source distribution of `vortex_select`.

The wheel is for the Python that runs this, with the native module in it that `build` builds. Nothing
but Python's standard library is needed.
"""

import ast
import base64
import hashlib
import io
import pathlib
import re
import subprocess
import sys
import sysconfig
import tarfile
import zipfile

HERE = pathlib.Path(__file__).resolve().parent
PACKAGE = HERE / "src" / "vortex_select"
PYTHON = "cp%d%d" % sys.version_info[:2]
TAG = f"{PYTHON}-{PYTHON}-linux_x86_64"
NATIVE = "_native" + sysconfig.get_config_var("EXT_SUFFIX")
# In a source distribution, what is above this folder in the repository is within it.
TOP = HERE if (HERE / "PKG-INFO").is_file() else HERE.parent
LICENSE = next(path for path in (HERE / "LICENSE", HERE.parent.parent / "LICENSE") if path.is_file())
# Files are the same bytes whenever they are built.
DATE = (2026, 1, 1, 0, 0, 0)


def table(name):
    """Return the strings and the lists of strings of a table of `pyproject.toml`."""
    text = (HERE / "pyproject.toml").read_text()
    found = re.search(rf"^\[{re.escape(name)}\]\n(.*?)(?=^\[[a-z]|\Z)", text, re.M | re.S).group(1)
    values = re.findall(r'^([\w-]+) = (".*?"|\[.*?\])$', found, re.M | re.S)
    return {key: ast.literal_eval(value) for key, value in values}


PROJECT = table("project")
BASE = f"{PROJECT['name'].replace('-', '_')}-{PROJECT['version']}"


def native():
    """Return the native module, which is built if it is missing in a source distribution."""
    path = PACKAGE / NATIVE
    if not path.is_file() and TOP == HERE:
        subprocess.run([HERE / "build", sys.executable], check=True)
    if not path.is_file():
        raise SystemExit(f"expected {path}, got no such file: run bindings/python/build")
    return path.read_bytes()


def metadata():
    lines = ["Metadata-Version: 2.1", f"Name: {PROJECT['name']}", f"Version: {PROJECT['version']}"]
    lines += [f"Summary: {PROJECT['description']}", "License: Apache-2.0", "License-File: LICENSE"]
    lines += [f"Keywords: {','.join(PROJECT['keywords'])}"]
    lines += [f"Project-URL: {name}, {url}" for name, url in table("project.urls").items()]
    lines += [f"Classifier: {text}" for text in PROJECT["classifiers"]]
    lines += [f"Requires-Python: {PROJECT['requires-python']}"]
    for extra, needed in table("project.optional-dependencies").items():
        lines += [f"Provides-Extra: {extra}"]
        lines += [f'Requires-Dist: {name}; extra == "{extra}"' for name in needed]
    lines += ["Description-Content-Type: text/markdown", ""]
    return "\n".join([*lines, (HERE / PROJECT["readme"]).read_text()]).encode()


def modules():
    """Return the Python files of the package."""
    return [path for path in PACKAGE.iterdir() if path.name.endswith((".py", ".pyi", "py.typed"))]


def contents(info):
    files = {f"vortex_select/{path.name}": path.read_bytes() for path in modules()}
    files[f"vortex_select/{NATIVE}"] = native()
    files[f"{info}/LICENSE"] = LICENSE.read_bytes()
    files[f"{info}/METADATA"] = metadata()
    wheel = ["Wheel-Version: 1.0", "Generator: wheel_with_library", "Root-Is-Purelib: false"]
    files[f"{info}/WHEEL"] = "\n".join([*wheel, f"Tag: {TAG}", ""]).encode()
    return files


def digest(data):
    return base64.urlsafe_b64encode(hashlib.sha256(data).digest()).rstrip(b"=").decode()


def build_wheel(wheel_directory, config_settings=None, metadata_directory=None):
    info = f"{BASE}.dist-info"
    files = contents(info)
    record = [f"{name},sha256={digest(data)},{len(data)}" for name, data in sorted(files.items())]
    files[f"{info}/RECORD"] = "\n".join([*record, f"{info}/RECORD,,", ""]).encode()
    name = f"{BASE}-{TAG}.whl"
    with zipfile.ZipFile(pathlib.Path(wheel_directory) / name, "w", zipfile.ZIP_DEFLATED) as wheel:
        for path, data in files.items():
            wheel.writestr(zipfile.ZipInfo(path, DATE), data)
    return name


def sources():
    """Return the files of a source distribution, by their paths in it."""
    own = ["pyproject.toml", "README.md", "build", "wheel_with_library.py", "native/Cargo.toml"]
    own += ["native/build.rs", "native/.cargo/config.toml", "examples/people.py"]
    files = {name: HERE / name for name in own}
    files.update({f"src/vortex_select/{path.name}": path for path in modules()})
    files.update({f"native/src/{path.name}": path for path in (HERE / "native/src").glob("*.rs")})
    for path in sorted((TOP / "rust").rglob("*")):
        inside = path.relative_to(TOP).as_posix()
        if path.is_file() and not re.search("/(tests|target)/", inside):
            files[inside] = path
    # In the repository, these are beside the bindings.
    for name in ("shim", "include"):
        for path in sorted((TOP.parent / name).glob("*")) if TOP != HERE else ():
            files[f"rust/vortex-select-sys/{name}/{path.name}"] = path
    for name in ("", "rust/vortex-select/", "rust/vortex-select-sys/"):
        files[f"{name}LICENSE"] = LICENSE
    return files


def added(path, data):
    """Return the header of a file in a source distribution, and the file."""
    header = tarfile.TarInfo(f"{BASE}/{path}")
    header.size, header.mtime = len(data), 1_767_225_600
    header.mode = 0o755 if path == "build" else 0o644
    return header, io.BytesIO(data)


def build_sdist(sdist_directory, config_settings=None):
    files = {path: source.read_bytes() for path, source in sources().items()}
    files["PKG-INFO"] = metadata()
    # The Rust crates are within the distribution.
    cargo = files["native/Cargo.toml"].decode()
    files["native/Cargo.toml"] = cargo.replace('"../../rust/', '"../rust/').encode()
    name = f"{BASE}.tar.gz"
    with tarfile.open(pathlib.Path(sdist_directory) / name, "w:gz") as archive:
        for path, data in sorted(files.items()):
            archive.addfile(*added(path, data))
    return name
