"""Has pip build the package, with nothing but Python: a wheel with the module in C, for each Python from 3.10 on, where there is a compiler with
Python's headers and the library's archive with its header. Where not, the package calls the shared object by ctypes, with the same answers.

The archive is that of the folder JEANZIRCON_LIB_DIR, or that of the installation or the checkout which this folder is in, or pkg-config's."""
import base64
import glob
import hashlib
import io
import os
import re
import subprocess
import sysconfig
import tarfile
import tempfile
import zipfile

HERE = os.path.dirname(os.path.realpath(__file__))
METADATA = """Metadata-Version: 2.1
Name: jeanzircon
Version: {version}
Summary: {description}
License: MIT OR Apache-2.0
Requires-Python: {requires-python}
"""


def about():
    """What pyproject.toml says of the package."""
    with open(f"{HERE}/pyproject.toml", encoding="utf-8") as file:
        return dict(re.findall(r'^(version|description|requires-python) = "(.*)"$', file.read(), re.M))


def read(path):
    with open(path, "rb") as file:
        return file.read()


def packaged(name):
    """A folder of the library by pkg-config, or none."""
    try:
        words = ["pkg-config", f"--variable={name}", "jeanzircon"]
        return subprocess.run(words, stdout=subprocess.PIPE, stderr=subprocess.DEVNULL, text=True).stdout.strip()
    except OSError:
        return ""


def folders():
    """The folders that may have the archive and the headers."""
    told = os.environ.get("JEANZIRCON_LIB_DIR")
    above = [f"{HERE}/../../../lib", f"{HERE}/../../out"]
    return [told] if told else [*above, packaged("libdir")]


def is_compiled(to):
    """Whether the module could be compiled to this file."""
    for folder in folders():
        headers = [folder, f"{folder}/../include"]
        if os.path.isfile(f"{folder}/libjeanzircon.a") and any(os.path.isfile(f"{it}/jeanzircon_data.h") for it in headers):
            include = [f"-I{it}" for it in (sysconfig.get_path("include"), *headers, f"{HERE}/../../include")]
            words = [*os.environ.get("CC", "cc").split(), "-O2", "-fPIC", "-shared", "-fvisibility=hidden", *include, "-o", to]
            words += [*sorted(glob.glob(f"{HERE}/src/*.c")), f"{folder}/libjeanzircon.a", "-Wl,--exclude-libs,ALL", "-Wl,-z,relro,-z,now"]
            try:
                return subprocess.run(words).returncode == 0
            except OSError:
                return False
    return False


def wheel(files, said, tag, when=(1980, 1, 1, 0, 0, 0)):
    """A wheel of these files, and of others beside what it says of itself: its name, and its bytes."""
    version = about()["version"]
    info = f"jeanzircon-{version}.dist-info"
    files = {**files, **{f"{info}/{name}": it for name, it in said.items()}, f"{info}/METADATA": METADATA.format(**about()).encode()}
    pure = "true" if tag.endswith("-any") else "false"
    files[f"{info}/WHEEL"] = f"Wheel-Version: 1.0\nGenerator: jeanzircon\nRoot-Is-Purelib: {pure}\nTag: {tag}\n".encode()
    sums = {name: base64.urlsafe_b64encode(hashlib.sha256(it).digest()).rstrip(b"=").decode() for name, it in files.items()}
    files[f"{info}/RECORD"] = "".join(f"{name},sha256={sums[name]},{len(files[name])}\n" for name in sums).encode() + f"{info}/RECORD,,\n".encode()
    packed = io.BytesIO()
    with zipfile.ZipFile(packed, "w", zipfile.ZIP_DEFLATED) as file:
        for name, it in files.items():
            member = zipfile.ZipInfo(name, when)
            member.external_attr = (0o100755 if name.endswith(".so") else 0o100644) << 16
            member.create_system, member.compress_type = 3, zipfile.ZIP_DEFLATED
            file.writestr(member, it)
    return f"jeanzircon-{version}-{tag}.whl", packed.getvalue()


# What pip calls, and, of a package of sources, `python3 -m build`.
def build_wheel(wheel_directory, config_settings=None, metadata_directory=None):
    names = [it for it in sorted(os.listdir(f"{HERE}/jeanzircon")) if it.endswith((".py", ".pyi", ".typed"))]
    files = {f"jeanzircon/{it}": read(f"{HERE}/jeanzircon/{it}") for it in names}
    tag = "py3-none-any"
    with tempfile.TemporaryDirectory() as room:
        if is_compiled(f"{room}/_c.abi3.so"):
            files["jeanzircon/_c.abi3.so"] = read(f"{room}/_c.abi3.so")
            tag = f"cp310-abi3-{re.sub('[-.]', '_', sysconfig.get_platform())}"
    name, packed = wheel(files, {}, tag)
    with open(f"{wheel_directory}/{name}", "wb") as file:
        file.write(packed)
    return name


def build_sdist(sdist_directory, config_settings=None):
    name = f"jeanzircon-{about()['version']}"
    with tarfile.open(f"{sdist_directory}/{name}.tar.gz", "w:gz", format=tarfile.PAX_FORMAT) as file:
        for it in ("pyproject.toml", "backend.py", *(f"{folder}/{it}" for folder in ("jeanzircon", "src") for it in sorted(os.listdir(f"{HERE}/{folder}")))):
            if it.endswith((".py", ".pyi", ".typed", ".toml", ".c", ".h")):
                file.add(f"{HERE}/{it}", f"{name}/{it}")
        member, told = tarfile.TarInfo(f"{name}/PKG-INFO"), METADATA.format(**about()).encode()
        member.size = len(told)
        file.addfile(member, io.BytesIO(told))
    return f"{name}.tar.gz"
