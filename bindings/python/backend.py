"""Builds the wheel of the module tt_render for pip: the module, and the C library of the text in dist/, which the C
compiler makes. It needs no other package, and so no network. dist/ is the folder that TT_RENDER_DIST names, or the one
of this archive or repository."""
import base64
import hashlib
import io
import os
import pathlib
import re
import subprocess
import sysconfig
import tarfile
import tempfile
import zipfile

HERE = pathlib.Path(__file__).resolve().parent
PROJECT = dict(re.findall(r'^([a-z-]+) = "(.*)"$', (HERE / "pyproject.toml").read_text(encoding="utf-8"), re.M))
NAME = f"{PROJECT['name']}-{PROJECT['version']}"
TAG = f"py3-none-{re.sub('[-.]', '_', sysconfig.get_platform())}"
METADATA = f"""Metadata-Version: 2.1
Name: {PROJECT['name']}
Version: {PROJECT['version']}
Summary: {PROJECT['description']}
Requires-Python: {PROJECT['requires-python']}
"""


def dist():
    """Returns the folder dist/."""
    named = os.environ.get("TT_RENDER_DIST")
    for place in [pathlib.Path(named)] if named else [HERE / "dist", HERE.parent.parent / "dist"]:
        if (place / "install").exists():
            return place
    raise SystemExit("tt_render: the folder dist/ of the repository is not there; TT_RENDER_DIST names it")


def made_library():
    """Returns the bytes of the shared library, which dist/install makes with CC and CFLAGS."""
    with tempfile.TemporaryDirectory() as room:
        ran = subprocess.run(["bash", dist() / "install", "--library", room], stdout=subprocess.PIPE)
        if ran.returncode:
            raise SystemExit("tt_render: the C library was not made; a line above says why")
        return pathlib.Path(room, "lib/libtt_render.so.2").read_bytes()


def build_wheel(wheel_directory, config_settings=None, metadata_directory=None):
    """Writes the wheel, and returns its name."""
    files = {f"tt_render/{it.name}": it.read_bytes() for it in sorted((HERE / "tt_render").glob("*.py*"))}
    files["tt_render/libtt_render.so.2"] = made_library()
    files[f"{NAME}.dist-info/METADATA"] = METADATA.encode()
    files[f"{NAME}.dist-info/WHEEL"] = f"Wheel-Version: 1.0\nRoot-Is-Purelib: false\nTag: {TAG}\n".encode()
    record = ""
    for name, data in files.items():
        digest = base64.urlsafe_b64encode(hashlib.sha256(data).digest()).decode().rstrip("=")
        record += f"{name},sha256={digest},{len(data)}\n"
    files[f"{NAME}.dist-info/RECORD"] = f"{record}{NAME}.dist-info/RECORD,,\n".encode()
    wheel = f"{NAME}-{TAG}.whl"
    with zipfile.ZipFile(pathlib.Path(wheel_directory, wheel), "w", zipfile.ZIP_DEFLATED) as archive:
        for name, data in files.items():
            # A fixed date, so that equal files make equal wheels.
            entry = zipfile.ZipInfo(name)
            entry.external_attr = 0o100644 << 16
            entry.compress_type = zipfile.ZIP_DEFLATED
            archive.writestr(entry, data)
    return wheel


def build_sdist(sdist_directory, config_settings=None):
    """Writes an archive of this folder, with dist/ in it, and returns its name."""
    archive = f"{NAME}.tar.gz"
    with tarfile.open(pathlib.Path(sdist_directory, archive), "w:gz", dereference=True) as to:
        for path in (*(HERE / it for it in ("pyproject.toml", "backend.py", "tests", "tt_render")), dist()):
            name = "dist" if path == dist() else path.name
            to.add(path, f"{NAME}/{name}", filter=lambda it: None if "__pycache__" in it.name else it)
        entry = tarfile.TarInfo(f"{NAME}/PKG-INFO")
        entry.size = len(METADATA.encode())
        to.addfile(entry, io.BytesIO(METADATA.encode()))
    return archive
