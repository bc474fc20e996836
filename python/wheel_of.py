"""What `pip install ./python` runs (PEP 517, PEP 660): packs the package, with ../c/out/libswitchbr.so where that was built. It needs nothing
from the network."""
import base64
import hashlib
import io
import pathlib
import re
import tarfile
import zipfile

HERE = pathlib.Path(__file__).resolve().parent
BUILT = HERE.parent / "c/out/libswitchbr.so"
VERSION = re.search('__version__ = "(.*)"', (HERE / "switchbr/__init__.py").read_text())[1]
INFO = f"switchbr-{VERSION}.dist-info"
METADATA = f"""Metadata-Version: 2.1
Name: switchbr
Version: {VERSION}
Summary: a model of the Linux bridge with switchdev offload
Requires-Python: >=3.8
""".encode()


def package():
    """The files of the package by name; the shared object of the repository goes before one that a source distribution has."""
    files = {f"switchbr/{file.name}": file.read_bytes() for file in (HERE / "switchbr").iterdir() if file.suffix in (".py", ".so", ".typed")}
    if BUILT.exists():
        files["switchbr/libswitchbr.so"] = BUILT.read_bytes()
    return files


def wheel(folder, files, platform):
    """Writes a wheel with these files, and answers its name (the binary distribution format of PyPA)."""
    about = f"Wheel-Version: 1.0\nRoot-Is-Purelib: {str(platform == 'any').lower()}\nTag: py3-none-{platform}\n"
    files = {**files, f"{INFO}/METADATA": METADATA, f"{INFO}/WHEEL": about.encode()}
    sums = {name: base64.urlsafe_b64encode(hashlib.sha256(data).digest()).rstrip(b"=").decode() for name, data in files.items()}
    rows = [f"{name},sha256={sums[name]},{len(data)}\n" for name, data in files.items()]
    files[f"{INFO}/RECORD"] = "".join([*rows, f"{INFO}/RECORD,,\n"]).encode()
    name = f"switchbr-{VERSION}-py3-none-{platform}.whl"
    with zipfile.ZipFile(pathlib.Path(folder, name), "w", zipfile.ZIP_DEFLATED) as packed:
        for file, data in files.items():
            packed.writestr(file, data)
    return name


def build_wheel(wheel_directory, config_settings=None, metadata_directory=None):
    files = package()
    return wheel(wheel_directory, files, "linux_x86_64" if "switchbr/libswitchbr.so" in files else "any")


def build_editable(wheel_directory, config_settings=None, metadata_directory=None):
    return wheel(wheel_directory, {"switchbr.pth": f"{HERE}\n".encode()}, "any")


def build_sdist(sdist_directory, config_settings=None):
    top = f"switchbr-{VERSION}"
    files = {**package(), **{name: (HERE / name).read_bytes() for name in ("pyproject.toml", "wheel_of.py")}, "PKG-INFO": METADATA}
    with tarfile.open(pathlib.Path(sdist_directory, f"{top}.tar.gz"), "w:gz") as packed:
        for name, data in files.items():
            entry = tarfile.TarInfo(f"{top}/{name}")
            entry.size = len(data)
            packed.addfile(entry, io.BytesIO(data))
    return f"{top}.tar.gz"
