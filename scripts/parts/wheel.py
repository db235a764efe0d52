"""wheel.py LIBRARY FOLDER: packs the package below `python` with the shared object into a wheel for pip, the same bytes from the
same sources, and prints its path."""
import base64
import hashlib
import os
import sys
import zipfile

TOP = os.path.join(os.path.dirname(os.path.abspath(__file__)), "..", "..")
TAG = "py3-none-linux_x86_64"


def read(path):
    with open(path, "rb") as file:
        return file.read()


def packed(version, library):
    """What the wheel holds, by name."""
    package = f"{TOP}/python/hotsync"
    names = sorted(name for name in os.listdir(package) if name.endswith(".py") or name == "py.typed")
    held = {f"hotsync/{name}": read(f"{package}/{name}") for name in names}
    held["hotsync/libhotsync.so.0"] = read(library)
    info = f"hotsync-{version}.dist-info"
    about = f"""Metadata-Version: 2.1
Name: hotsync
Version: {version}
Summary: Readers of Palm databases, serial packets and traces, texts of records, the merge of a HotSync, and a handheld in memory
License: MIT
Requires-Python: >=3.8
"""
    held[f"{info}/METADATA"] = about.encode()
    held[f"{info}/WHEEL"] = f"Wheel-Version: 1.0\nGenerator: scripts/parts/wheel.py\nRoot-Is-Purelib: false\nTag: {TAG}\n".encode()
    held[f"{info}/LICENSE"] = read(f"{TOP}/LICENSE")
    return held, f"{info}/RECORD"


def main(library, folder):
    version = read(f"{TOP}/VERSION").decode().strip()
    held, record = packed(version, library)
    rows = []
    for name, data in held.items():
        digest = base64.urlsafe_b64encode(hashlib.sha256(data).digest()).rstrip(b"=").decode()
        rows.append(f"{name},sha256={digest},{len(data)}\n")
    held[record] = "".join([*rows, f"{record},,\n"]).encode()
    to = f"{folder}/hotsync-{version}-{TAG}.whl"
    with zipfile.ZipFile(to, "w", zipfile.ZIP_DEFLATED) as wheel:
        for name, data in held.items():
            entry = zipfile.ZipInfo(name, (1980, 1, 1, 0, 0, 0))
            entry.external_attr, entry.compress_type = 0o644 << 16, zipfile.ZIP_DEFLATED
            wheel.writestr(entry, data)
    print(to)


if __name__ == "__main__":
    main(*sys.argv[1:3])
