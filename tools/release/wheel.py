#!/usr/bin/env python3
"""Makes the wheel of the package in bindings/python. The same sources and the same time give the same bytes.

tools/release/wheel.py FOLDER: writes `wasmprinter_proved-VERSION-py3-none-any.whl` to the folder. SOURCE_DATE_EPOCH is the time of its files, in
seconds since 1970.

The metadata are those of pyproject.toml (core metadata 2.1). Stops if that file has a key that this script does not know. setuptools makes the
same package, but the bytes depend on its release, and releases before 70.1 also need the package `wheel`.
"""

import base64
import hashlib
import os
import pathlib
import re
import sys
import time
import tomllib
import zipfile

SOURCE = pathlib.Path(__file__).resolve().parents[2] / "bindings/python"
KNOWN = {"name", "description", "readme", "requires-python", "license", "keywords", "classifiers", "dynamic"}  # keys of [project]
WHEEL = "Wheel-Version: 1.0\nGenerator: tools/release/wheel.py\nRoot-Is-Purelib: true\nTag: py3-none-any\n"
MODE = 0o100644 << 16  # a regular file that its owner writes and all read


def version_of(settings):
    """Returns the version that the attribute of the package has."""
    package, _, name = settings["tool"]["setuptools"]["dynamic"]["version"]["attr"].rpartition(".")
    code = (SOURCE / package / "__init__.py").read_text(encoding="utf-8")
    return re.search(rf'^{name} = "([^"]+)"$', code, re.MULTILINE)[1]


def metadata(project, version):
    """Returns the file METADATA."""
    if unknown := set(project) - KNOWN:
        sys.exit(f"wheel: pyproject.toml has keys that this script does not know: {', '.join(sorted(unknown))}")
    lines = ["Metadata-Version: 2.1", f"Name: {project['name']}", f"Version: {version}", f"Summary: {project['description']}"]
    lines += [f"License: {project['license']['text']}", f"Keywords: {','.join(project['keywords'])}"]
    lines += [f"Classifier: {name}" for name in project["classifiers"]]
    lines += [f"Requires-Python: {project['requires-python']}", "Description-Content-Type: text/markdown", "License-File: LICENSE"]
    return "\n".join(lines) + "\n\n" + (SOURCE / project["readme"]).read_text(encoding="utf-8")


def files_of(settings, version):
    """Returns the files of the wheel: their paths and their bytes. The last one lists the others with their digests."""
    folder = f"{settings['project']['name'].replace('-', '_')}-{version}.dist-info"
    tool = settings["tool"]["setuptools"]
    files = {}
    for package in tool["packages"]:
        names = sorted(path.name for path in (SOURCE / package).glob("*.py")) + tool["package-data"].get(package, [])
        files |= {f"{package}/{name}": (SOURCE / package / name).read_bytes() for name in names}
    files[f"{folder}/LICENSE"] = (SOURCE / "LICENSE").read_bytes()
    files[f"{folder}/METADATA"] = metadata(settings["project"], version).encode()
    files[f"{folder}/WHEEL"] = WHEEL.encode()
    digests = {path: base64.urlsafe_b64encode(hashlib.sha256(data).digest()).rstrip(b"=").decode() for path, data in files.items()}
    rows = [f"{path},sha256={digests[path]},{len(data)}\n" for path, data in files.items()] + [f"{folder}/RECORD,,\n"]
    files[f"{folder}/RECORD"] = "".join(rows).encode()
    return files


def main():
    settings = tomllib.loads((SOURCE / "pyproject.toml").read_text(encoding="utf-8"))
    version = version_of(settings)
    moment = time.gmtime(int(os.environ["SOURCE_DATE_EPOCH"]))[:6]
    target = pathlib.Path(sys.argv[1], f"{settings['project']['name'].replace('-', '_')}-{version}-py3-none-any.whl")
    # not compressed: the compressed bytes depend on the release of zlib
    with zipfile.ZipFile(target, "w", zipfile.ZIP_STORED) as archive:
        for path, data in files_of(settings, version).items():
            entry = zipfile.ZipInfo(path, moment)
            entry.create_system, entry.external_attr = 3, MODE
            archive.writestr(entry, data)


if __name__ == "__main__":
    main()
