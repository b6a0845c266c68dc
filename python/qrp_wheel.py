"""Builds the wheel and the source distribution of qrp_check: the build backend that pyproject.toml names, in the standard library alone.

pip calls `build_wheel(FOLDER)`. The wheel holds qrp_check/ and the library: the file that the environment variable QRP_LIBRARY names, or
lib/libqrp.so.1 in this folder or in the one above it, where `make lib` puts it. The version is that of the file VERSION, in one of these
folders too. `build_sdist(FOLDER)` packs the module and this file without the library, and `build_editable(FOLDER)` a wheel that leads
here. The same files give the same wheel and the same source distribution.

usage: python3 python/qrp_wheel.py [FOLDER]    leaves the wheel and the source distribution in dist/, or in this folder
"""

import base64
import gzip
import hashlib
import io
import os
import pathlib
import re
import sys
import tarfile
import zipfile

HERE = pathlib.Path(__file__).resolve().parent
NAME = "qrp_check"
METADATA = """\
Metadata-Version: 2.1
Name: qrp_check
Version: {version}
Summary: The proved checker of QBF proofs (QRP) of formulas (QDIMACS), in process
Keywords: QBF,QDIMACS,QRP,proof checker,formal verification
Classifier: Development Status :: 4 - Beta
Classifier: Intended Audience :: Developers
Classifier: Intended Audience :: Science/Research
Classifier: Operating System :: POSIX :: Linux
Classifier: Programming Language :: Python :: 3
Classifier: Programming Language :: Python :: 3 :: Only
Classifier: Programming Language :: Python :: Implementation :: CPython
Classifier: Programming Language :: Python :: Implementation :: PyPy
Classifier: Topic :: Scientific/Engineering :: Mathematics
Classifier: Topic :: Software Development :: Libraries :: Python Modules
Classifier: Typing :: Typed
Requires-Python: >=3.9
Description-Content-Type: text/markdown

"""


def _beside(*names):
    """The first file of these names that is in this folder or in the one above it, None if there is none."""
    return next((file for name in names for file in (HERE / name, HERE.parent / name) if file.is_file()), None)


def _version():
    file = _beside("VERSION")
    if file is None:
        raise SystemExit(f"{NAME}: there is no file VERSION in {HERE}, nor above it: build in the unpacked folder, in its place")
    return file.read_text().strip()


def _library():
    """The bytes of the library."""
    named = os.environ.get("QRP_LIBRARY")
    file = pathlib.Path(named) if named else _beside("lib/libqrp.so.1")
    if file is None or not file.is_file():
        missing = f"there is no file {file}" if file else f"there is no lib/libqrp.so.1 in {HERE}, nor above it"
        raise SystemExit(
            f"{NAME}: {missing}. The wheel holds this library, which the sources build by `make lib` and a release has in lib/. "
            "Name it by its whole path in the environment variable QRP_LIBRARY, or install the wheel of a release, which needs neither."
        )
    return file.read_bytes()


def _tags(library):
    """The platforms that the library runs on: Linux with the newest version of the C library that its symbols ask for, or a later one."""
    newest = max([17, *(int(minor) for minor in re.findall(rb"\0GLIBC_2\.(\d+)", library))])
    older_name = ["py3-none-manylinux2014_x86_64"] if newest == 17 else []
    return [f"py3-none-manylinux_2_{newest}_x86_64", *older_name]


def _metadata(version):
    return (METADATA.format(version=version) + (HERE / "README.md").read_text()).encode()


def _module():
    """The names and contents of the module's files."""
    files = sorted(file for file in (HERE / NAME).rglob("*") if file.suffix == ".py" or file.name == "py.typed")
    return [(file.relative_to(HERE).as_posix(), file.read_bytes()) for file in files]


def _wheel(folder, version, tags, files):
    """Writes a wheel of these files, and returns its name."""
    platforms = ".".join(tag.split("-")[2] for tag in tags)
    name = f"{NAME}-{version}-py3-none-{platforms}.whl"
    info = f"{NAME}-{version}.dist-info"
    purelib = "true" if platforms == "any" else "false"
    lines = "".join(f"Tag: {tag}\n" for tag in tags)
    about = f"Wheel-Version: 1.0\nGenerator: qrp_wheel\nRoot-Is-Purelib: {purelib}\n{lines}"
    files = [*files, (f"{info}/METADATA", _metadata(version)), (f"{info}/WHEEL", about.encode())]
    record = "".join(_record(file, content) for file, content in files) + f"{info}/RECORD,,\n"
    with zipfile.ZipFile(pathlib.Path(folder) / name, "w", zipfile.ZIP_DEFLATED) as wheel:
        for file, content in [*files, (f"{info}/RECORD", record.encode())]:
            wheel.writestr(_entry(file), content)
    return name


def _record(name, content):
    digest = base64.urlsafe_b64encode(hashlib.sha256(content).digest()).rstrip(b"=").decode()
    return f"{name},sha256={digest},{len(content)}\n"


def _entry(name):
    """An entry whose time and mode are fixed."""
    entry = zipfile.ZipInfo(name, (1980, 1, 1, 0, 0, 0))
    entry.compress_type = zipfile.ZIP_DEFLATED
    entry.external_attr = 0o644 << 16
    return entry


def build_wheel(wheel_directory, config_settings=None, metadata_directory=None):
    """Writes the wheel, with the library inside, to this folder, and returns its name."""
    version, library = _version(), _library()
    return _wheel(wheel_directory, version, _tags(library), [*_module(), (f"{NAME}/libqrp.so.1", library)])


def build_editable(wheel_directory, config_settings=None, metadata_directory=None):
    """Writes a wheel that leads to this folder, where the module finds its library itself, and returns its name."""
    return _wheel(wheel_directory, _version(), ["py3-none-any"], [(f"{NAME}.pth", f"{HERE}\n".encode())])


def build_sdist(sdist_directory, config_settings=None):
    """Writes the source distribution, without the library, to this folder, and returns its name."""
    version = _version()
    top = f"{NAME}-{version}"
    own = [(name, (HERE / name).read_bytes()) for name in ("README.md", "pyproject.toml", "qrp_wheel.py")]
    packed = io.BytesIO()
    with tarfile.open(fileobj=packed, mode="w", format=tarfile.USTAR_FORMAT) as archive:
        for name, content in sorted([*own, *_module(), ("PKG-INFO", _metadata(version)), ("VERSION", f"{version}\n".encode())]):
            entry = tarfile.TarInfo(f"{top}/{name}")
            entry.size = len(content)
            archive.addfile(entry, io.BytesIO(content))
    with open(pathlib.Path(sdist_directory) / f"{top}.tar.gz", "wb") as file, gzip.GzipFile("", "wb", fileobj=file, mtime=0) as zipped:
        zipped.write(packed.getvalue())
    return f"{top}.tar.gz"


def main(words):
    folder = pathlib.Path(words[0]) if words else HERE.parent / "dist"
    folder.mkdir(parents=True, exist_ok=True)
    for build in (build_wheel, build_sdist):
        print(folder / build(folder))


if __name__ == "__main__":
    main(sys.argv[1:])
