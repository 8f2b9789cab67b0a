#!/usr/bin/env python3
"""Makes the wheel of the package in the folder that is named (or in out/), with the shared library that bindings/c has built and the page
of bindings/page where it is made, and prints the name of the file. Where bindings/c has built none, the library is compiled of portable/rudlayog.c
with the compiler of the platform. `pip install bindings/python` calls it too (packaging.python.org, 'Build backend interface'). A wheel is a zip file (the
same, 'Binary distribution format'), so nothing is needed beside Python itself and a compiler."""

import base64
import gzip
import hashlib
import io
import os
import re
import shlex
import shutil
import subprocess
import sys
import sysconfig
import tarfile
import tempfile
import tomllib
import zipfile
from pathlib import Path
from typing import Any, NoReturn

HERE = Path(__file__).resolve().parent
LIBRARY = HERE.parent / "c" / "out" / "librudlayog.so"
PAGE = HERE.parent / "page" / "out" / "rudlayog.html"
LICENCES = ("LICENSE-APACHE", "LICENSE-MIT", "THIRD-PARTY-NOTICES.txt")
# The library as C: in a whole checkout, or in an archive of the sources.
SOURCES = (HERE.parents[1] / "portable", HERE / "portable")
SOURCE_FILES = ("rudlayog.c", "rudlayog.h")
SUFFIX = {"win32": ".dll", "darwin": ".dylib"}.get(sys.platform, ".so")
# The oldest version of the C library that a tag needs to be told of: all that are in use have it.
OLDEST = 17


def refuse(words: str) -> NoReturn:
    """Ends the program, or the installation that it is part of."""
    sys.exit(f"rudlayog: {words}")


def sources() -> Path | None:
    """The folder with the library as C."""
    return next((folder for folder in SOURCES if all((folder / name).is_file() for name in SOURCE_FILES)), None)


def compilers() -> list[list[str]]:
    """The compilers that may be there: the one that is named, and those of the platform."""
    named = [shlex.split(os.environ["CC"])] if os.environ.get("CC") else []
    usual = [["cl"], ["gcc"], ["clang"]] if sys.platform == "win32" else [["cc"], ["gcc"], ["clang"], ["tcc"]]
    return [words for words in [*named, *usual] if shutil.which(words[0])]


def command(words: list[str], folder: Path, source: Path, made: Path) -> list[str]:
    """How a compiler makes the shared library. On Windows the names that it has stand in a file."""
    if sys.platform == "win32":
        calls = re.findall(r"^void (rudlayog_\w+)", (folder / "rudlayog.h").read_text(encoding="utf-8"), re.M)
        names = made.with_suffix(".def")
        names.write_text("EXPORTS\n" + "".join(f"{name}\n" for name in calls), encoding="utf-8")
        if Path(words[0]).stem.lower() == "cl":
            return [*words, "/nologo", "/O1", "/LD", f"/Fe{made}", str(source), "/link", f"/DEF:{names}"]
        return [*words, "-O1", "-shared", "-o", str(made), str(source), str(names)]
    return [*words, "-O1", "-fPIC", "-dynamiclib" if sys.platform == "darwin" else "-shared", "-o", str(made), str(source)]


def compiled(folder: Path) -> bytes:
    """The shared library, compiled of its sources in C."""
    found = compilers()
    if not found:
        refuse("there is no C compiler: install one, or name it in CC; or install the wheel of a release")
    with tempfile.TemporaryDirectory() as work:
        made = Path(work, f"librudlayog{SUFFIX}")
        ran = subprocess.run(command(found[0], folder, folder / "rudlayog.c", made), cwd=work, capture_output=True, text=True, check=False)
        if ran.returncode or not made.is_file():
            refuse(f"{' '.join(found[0])} does not compile {folder / 'rudlayog.c'}: {ran.stdout[-500:]}{ran.stderr[-500:]}")
        return made.read_bytes()


def library() -> tuple[bytes, str]:
    """The shared library, and the tag of the wheel: that of the proved archive, where it is built for this machine; or it is compiled."""
    if LIBRARY.is_file() and sysconfig.get_platform() == "linux-x86_64":
        octets = LIBRARY.read_bytes()
        return octets, tag(octets)
    folder = sources()
    if folder is None:
        refuse(f"there is no {LIBRARY}: `make -C bindings/c` builds it in a whole checkout; or install the wheel of a release")
    platform = re.sub(r"[-.]", "_", sysconfig.get_platform())
    return compiled(folder), f"py3-none-{platform}"


def tag(octets: bytes) -> str:
    """The tag of a wheel with the proved archive: Linux on x86-64, with a C library at least as new as the newest of the versions of its symbols
    that the library names (PEP 600)."""
    newest = max((int(minor) for minor in re.findall(rb"GLIBC_2\.(\d+)", octets)), default=0)
    return f"py3-none-manylinux_2_{max(newest, OLDEST)}_x86_64"


def metadata(project: dict[str, Any]) -> str:
    """The file METADATA (core metadata 2.4)."""
    return (
        f"Metadata-Version: 2.4\nName: {project['name']}\nVersion: {project['version']}\nSummary: {project['description']}\n"
        f"Requires-Python: {project['requires-python']}\nLicense-Expression: {project['license']}\n"
        + "".join(f"License-File: {name}\n" for name in LICENCES)
        + "Description-Content-Type: text/markdown\n\n"
        + Path(HERE, project["readme"]).read_text(encoding="utf-8")
    )


def record_line(name: str, octets: bytes) -> str:
    """The line of a file in RECORD."""
    digest = base64.urlsafe_b64encode(hashlib.sha256(octets).digest()).rstrip(b"=").decode()
    return f"{name},sha256={digest},{len(octets)}\n"


def licence(name: str) -> bytes:
    """A licence, of the checkout or of an archive of the sources."""
    found = next((folder / name for folder in (HERE.parents[1], HERE) if (folder / name).is_file()), None)
    return found.read_bytes() if found else refuse(f"there is no {name}")


def files(project: dict[str, Any], about: str, shared: bytes, tagged: str) -> dict[str, bytes]:
    """The files of the wheel but RECORD, by their names in it."""
    name = project["name"]
    found = {f"{name}/{file.name}": file.read_bytes() for file in sorted((HERE / name).iterdir()) if file.suffix in (".py", ".typed")}
    found[f"{name}/librudlayog{SUFFIX}"] = shared
    if PAGE.is_file():
        found[f"{name}/page.html"] = PAGE.read_bytes()
    found[f"{about}/METADATA"] = metadata(project).encode()
    found[f"{about}/WHEEL"] = f"Wheel-Version: 1.0\nGenerator: make_wheel\nRoot-Is-Purelib: false\nTag: {tagged}\n".encode()
    found[f"{about}/entry_points.txt"] = "".join(["[console_scripts]\n", *(f"{command} = {call}\n" for command, call in project["scripts"].items())]).encode()
    for file in LICENCES:
        found[f"{about}/licenses/{file}"] = licence(file)
    return found


def build_wheel(wheel_directory: str, config_settings: object = None, metadata_directory: str | None = None) -> str:
    """Makes the wheel in a folder, and gives its name. The names are those of the interface."""
    project = tomllib.loads((HERE / "pyproject.toml").read_text(encoding="utf-8"))["project"]
    release = f"{project['name']}-{project['version']}"
    shared, tagged = library()
    found = files(project, f"{release}.dist-info", shared, tagged)
    wheel = f"{release}-{tagged}.whl"
    record = f"{release}.dist-info/RECORD"
    found[record] = ("".join(record_line(name, octets) for name, octets in found.items()) + f"{record},,\n").encode()
    with zipfile.ZipFile(Path(wheel_directory, wheel), "w", zipfile.ZIP_DEFLATED) as archive:
        for name, octets in found.items():
            # A fixed moment, so that the same files make the same wheel.
            entry = zipfile.ZipInfo(name, (2000, 1, 1, 0, 0, 0))
            entry.compress_type, entry.external_attr = zipfile.ZIP_DEFLATED, 0o100644 << 16
            archive.writestr(entry, octets)
    return wheel


def build_sdist(sdist_directory: str, config_settings: object = None) -> str:
    """Makes the archive of the sources in a folder, with the library as C, and gives its name."""
    project = tomllib.loads((HERE / "pyproject.toml").read_text(encoding="utf-8"))["project"]
    release, folder = f"{project['name']}-{project['version']}", sources()
    if folder is None:
        refuse("there is no portable/rudlayog.c: dist/portable makes it")
    found = {name: (HERE / name).read_bytes() for name in ("pyproject.toml", "make_wheel.py", project["readme"])}
    found |= {f"{project['name']}/{file.name}": file.read_bytes() for file in sorted((HERE / project["name"]).iterdir()) if file.suffix in (".py", ".typed")}
    found |= {f"portable/{name}": (folder / name).read_bytes() for name in SOURCE_FILES}
    found |= {name: licence(name) for name in LICENCES}
    found["PKG-INFO"] = metadata(project).encode()
    whole = io.BytesIO()
    with tarfile.open(fileobj=whole, mode="w", format=tarfile.PAX_FORMAT) as archive:
        for name, octets in found.items():
            entry = tarfile.TarInfo(f"{release}/{name}")
            entry.size, entry.mode = len(octets), 0o644
            archive.addfile(entry, io.BytesIO(octets))
    Path(sdist_directory, f"{release}.tar.gz").write_bytes(gzip.compress(whole.getvalue(), mtime=0))
    return f"{release}.tar.gz"


def main() -> None:
    """The program."""
    folder = Path(sys.argv[1]) if len(sys.argv) > 1 else HERE / "out"
    folder.mkdir(parents=True, exist_ok=True)
    print(folder / build_wheel(str(folder)))


if __name__ == "__main__":
    main()
