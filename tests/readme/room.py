"""A folder that looks like the repository, in which commands of documents run without writing to the repository."""
import os
import shutil
import struct
import subprocess
import tempfile
import zlib
from pathlib import Path

import markdown

# These folders are copied, since commands of documents write there.
COPIED = ("docs", "examples")
# Programs that install packages. In the room each of them only writes down that it was called.
INSTALLERS = ("apt-get", "apt", "sudo")


class Ran:
    """What came of a command."""

    def __init__(self, command, ended):
        self.command, self.status, self.stdout = command, ended.returncode, ended.stdout
        # The launcher says once that it has made the program.
        lines = ended.stderr.decode(errors="replace").splitlines()
        self.said = [it for it in lines if not it.startswith("tt_render: made in ")]

    def faults(self):
        """Returns what is wrong with a command that has to succeed without a word on standard error."""
        if not self.status and not self.said:
            return []
        return [f"{self.command}: status {self.status}", *self.said[-5:]]


class Room:
    """A temporary folder with links to the top of the repository, and a home."""

    def __init__(self):
        self.made = tempfile.TemporaryDirectory(prefix="tt_readme.")
        self.path = Path(self.made.name)
        self.home = self.path / "home"
        self.home.mkdir()
        self.calls = self.home / "calls"
        (self.home / "fakes").mkdir()
        for name in INSTALLERS:
            fake = self.home / "fakes" / name
            fake.write_text(f'#!/bin/sh\necho "{name} $*" >>"{self.calls}"\n')
            fake.chmod(0o755)
        for path in markdown.ROOT.iterdir():
            if path.name in COPIED:
                shutil.copytree(path, self.path / path.name)
            elif path.name not in (".git", "out"):
                (self.path / path.name).symlink_to(path)
        if os.environ.get("TT_RENDER"):
            (self.path / "tt_render").unlink()
            (self.path / "tt_render").symlink_to(os.environ["TT_RENDER"])

    def run(self, command, folder="."):
        """Runs a command in bash, which ends where a part of it fails."""
        words = {"HOME": str(self.home), "MANPAGER": "cat", "MANWIDTH": "80"}
        words["PATH"] = f"{self.home / 'fakes'}:{os.environ['PATH']}"
        ended = subprocess.run(
            ["bash", "-euo", "pipefail", "-c", command],
            cwd=self.path / folder,
            env={**os.environ, **words},
            stdin=subprocess.DEVNULL,
            capture_output=True,
            timeout=300,
        )
        return Ran(command, ended)

    def installed(self):
        """Returns the calls of programs that install packages."""
        return self.calls.read_text().splitlines() if self.calls.is_file() else []

    def read(self, name):
        """Returns the bytes of a file that a command wrote; none where it wrote no such file."""
        path = self.path / name
        return path.read_bytes() if path.is_file() else b""


def unpacked(data):
    """Returns the PBM file (P4) of a file in PNG whose pictures have one bit a pixel and no filter."""
    at, parts = 8, {}
    while at < len(data):
        size, kind = struct.unpack(">I4s", data[at : at + 8])
        parts[kind] = parts.get(kind, b"") + data[at + 8 : at + 8 + size]
        at += size + 12
    width, height = struct.unpack(">II", parts[b"IHDR"][:8])
    rows, size = zlib.decompress(parts[b"IDAT"]), (width + 7) // 8 + 1
    return f"P4\n{width} {height}\n".encode() + b"".join(rows[it * size + 1 : (it + 1) * size] for it in range(height))


def pictures(data):
    """Returns the pictures of a file, PBM (P4) or PNG, each as rows of '#' and '.', or nothing in another file."""
    data = unpacked(data) if data.startswith(b"\x89PNG") else data
    found = []
    while data:
        head = data.split(b"\n", 2)
        if len(head) < 3 or head[0] != b"P4":
            return []
        width, height = map(int, head[1].split())
        bytes_a_row = (width + 7) // 8
        rows = [head[2][at * bytes_a_row:(at + 1) * bytes_a_row] for at in range(height)]
        found.append(["".join(f"{it:08b}" for it in row)[:width].translate({48: ".", 49: "#"}) for row in rows])
        data = head[2][height * bytes_a_row:]
    return found
