"""Builds the wheel: the package, with the shared object inside. It needs nothing but Python, so that pip needs no index for it.

The shared object is the one that HONGPILAS names, or else the one that `make` builds, or the tarball has. An editable install leaves the package where
it lies, and uses the shared object of the same places. The same files give the same bytes.
"""
import base64
import gzip
import hashlib
import io
import os
import re
import subprocess
import sysconfig
import tarfile
import time
import zipfile

HERE = os.path.dirname(os.path.abspath(__file__))
PACKAGE = "hongpilas"
LIBRARY = "libhongpilas.so"
PLACES = ("../../out", "../../lib")
LICENSES = ("LICENSE", "LICENSE-THIRD-PARTY")
#: What a source distribution has beside the package itself.
SOURCES = ("pyproject.toml", "wheel_of_hongpilas.py", "README.md", *LICENSES)
#: Wheels of Linux for any distribution are for this version of glibc at least: manylinux2014.
MANYLINUX = (2, 17)


def library():
    """The path of the shared object."""
    named = os.environ.get("HONGPILAS")
    if named and not os.path.isabs(named):
        raise SystemExit(f"HONGPILAS={named} has no meaning here, since pip builds in a folder of its own: name the shared object from / on")
    if named and not os.path.isfile(named):
        raise SystemExit(f"HONGPILAS names the shared object itself, as /usr/local/lib/{LIBRARY}: no file is at {named}")
    places = [named] if named else [os.path.join(HERE, place, LIBRARY) for place in PLACES]
    for place in places:
        if os.path.isfile(place):
            return place
    raise SystemExit(f"{LIBRARY} is not at {' or '.join(places)}: `make` builds it, and HONGPILAS names another one")


def read(path):
    with open(path, "rb") as file:
        return file.read()


def project():
    """The text of the project's table."""
    return read(os.path.join(HERE, "pyproject.toml")).decode()


def field(name):
    """A field of the project's table."""
    return re.search(rf'^{name} = "(.*)"$', project(), re.M)[1]


def listed(name):
    """A list of the project's table."""
    return re.findall(r'"(.*?)"', re.search(rf"^{name} = \[(.*?)\]", project(), re.M | re.S)[1])


def is_manylinux(path):
    """Whether the shared object needs glibc alone, and no later version than MANYLINUX. Without objdump nobody knows."""
    try:
        told = subprocess.run(["objdump", "-p", path], capture_output=True, text=True, check=True).stdout
    except (OSError, subprocess.CalledProcessError):
        return False
    needed = re.findall(r"^ +NEEDED +(\S+)$", told, re.M)
    versions = [tuple(map(int, version.split("."))) for version in re.findall(r" GLIBC_([\d.]+)$", told, re.M)]
    return bool(versions) and set(needed) <= {"libc.so.6", "ld-linux-x86-64.so.2"} and max(versions) <= MANYLINUX


def tag():
    """Any Python 3, on this kind of machine."""
    platform = sysconfig.get_platform().replace("-", "_").replace(".", "_")
    if platform == "linux_x86_64" and is_manylinux(library()):
        platform = f"manylinux_{MANYLINUX[0]}_{MANYLINUX[1]}_x86_64.manylinux2014_x86_64"
    return f"py3-none-{platform}"


def metadata():
    lines = [
        "Metadata-Version: 2.1", f"Name: {PACKAGE}", f"Version: {field('version')}", f"Summary: {field('description')}",
        f"Keywords: {','.join(listed('keywords'))}", "License: MIT", *(f"License-File: {name}" for name in LICENSES),
        *(f"Classifier: {name}" for name in listed("classifiers")), f"Requires-Python: {field('requires-python')}",
        "Description-Content-Type: text/markdown", "", read(os.path.join(HERE, "README.md")).decode(),
    ]
    return "\n".join(lines).encode()


def sources():
    """The files of the package, by their names from src on."""
    folder = os.path.join(HERE, "src", PACKAGE)
    return {f"{PACKAGE}/{name}": read(os.path.join(folder, name)) for name in sorted(os.listdir(folder)) if name.endswith((".py", ".typed"))}


def epoch():
    """The time that files have: SOURCE_DATE_EPOCH, or else the first that a wheel can have."""
    return max(int(os.environ.get("SOURCE_DATE_EPOCH") or 0), 315532800)


def digest(content):
    return base64.urlsafe_b64encode(hashlib.sha256(content).digest()).rstrip(b"=").decode()


def write_wheel(folder, files, wheel_tag):
    """Writes a wheel with these files, and with what each wheel has, and returns its name."""
    about = f"{PACKAGE}-{field('version')}.dist-info"
    files[f"{about}/METADATA"] = metadata()
    files[f"{about}/WHEEL"] = f"Wheel-Version: 1.0\nGenerator: {__name__}\nRoot-Is-Purelib: false\n".encode()
    files[f"{about}/WHEEL"] += "".join(f"Tag: py3-none-{platform}\n" for platform in wheel_tag.split("-")[2].split(".")).encode()
    for name in LICENSES:
        files[f"{about}/{name}"] = read(os.path.join(HERE, name))
    rows = [f"{name},sha256={digest(content)},{len(content)}" for name, content in files.items()]
    files[f"{about}/RECORD"] = "".join(f"{row}\n" for row in [*rows, f"{about}/RECORD,,"]).encode()
    name = f"{PACKAGE}-{field('version')}-{wheel_tag}.whl"
    with zipfile.ZipFile(os.path.join(folder, name), "w", zipfile.ZIP_DEFLATED) as wheel:
        for path, content in files.items():
            entry = zipfile.ZipInfo(path, time.gmtime(epoch())[:6])
            entry.compress_type, entry.create_system = zipfile.ZIP_DEFLATED, 3
            entry.external_attr = (0o755 if path.endswith(".so") else 0o644) << 16
            wheel.writestr(entry, content)
    return name


def build_wheel(wheel_directory, config_settings=None, metadata_directory=None):
    return write_wheel(wheel_directory, {**sources(), f"{PACKAGE}/{LIBRARY}": read(library())}, tag())


def build_editable(wheel_directory, config_settings=None, metadata_directory=None):
    library()
    return write_wheel(wheel_directory, {f"{PACKAGE}.pth": os.path.join(HERE, "src\n").encode()}, tag())


def build_sdist(sdist_directory, config_settings=None):
    """The sources of the package. They have no shared object: who builds of them names one in HONGPILAS."""
    base = f"{PACKAGE}-{field('version')}"
    files = {**{name: read(os.path.join(HERE, name)) for name in SOURCES}, **{f"src/{name}": content for name, content in sources().items()}}
    packed = io.BytesIO()
    with tarfile.open(fileobj=packed, mode="w", format=tarfile.PAX_FORMAT) as archive:
        for name, content in {"PKG-INFO": metadata(), **files}.items():
            entry = tarfile.TarInfo(f"{base}/{name}")
            entry.size, entry.mtime, entry.mode = len(content), epoch(), 0o644
            archive.addfile(entry, io.BytesIO(content))
    with open(os.path.join(sdist_directory, f"{base}.tar.gz"), "wb") as file:
        file.write(compressed(packed.getvalue()))
    return f"{base}.tar.gz"


def compressed(content):
    """By gzip, without a name and a time of its own."""
    packed = io.BytesIO()
    with gzip.GzipFile(filename="", fileobj=packed, mode="wb", mtime=0) as file:
        file.write(content)
    return packed.getvalue()
