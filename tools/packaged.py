#!/usr/bin/env python3
"""The Python package as a wheel, with the proved library and programs inside, and the extension of the package.

    tools/packaged.py extension         writes target/shared/_calls.*.so for this Python; needs cc and Python.h
    tools/packaged.py wheel [FOLDER]    writes a wheel into a folder, target/wheel where none is named

It is the build backend of pyproject.toml too (PEP 517 and 660), so that `pip install .` needs nothing but pip. Where the
extension cannot be compiled, the wheel is without it, and the package goes through ctypes: the same answers, slower.
"""

import base64
import hashlib
import os
import re
import shutil
import subprocess
import sys
import sysconfig
import tempfile
import zipfile
from pathlib import Path

ROOT = Path(__file__).resolve().parents[1]
PACKAGE = ROOT / "python" / "sukhlent"
SHARED = ROOT / "target" / "shared"
LIBRARY = "libsukhlent.so"
PROGRAMS = ("reduce", "job", "amplitudes")

#: from this version on Python's limited interface has buffers, and one extension serves every later Python
LIMITED = (3, 11)

#: no wheel is said to be for an older C library than 2.17, the oldest that is still met with
OLDEST = 17


class Missing(Exception):
    """Something that the build needs and does not find."""


class UnsupportedOperation(Exception):
    """What this backend does not do."""


def version():
    """The version of the header."""
    return re.search(r'VERSION_TEXT "(.*)"', (ROOT / "include" / "sukhlent.h").read_text())[1]


def field(name):
    """A text of pyproject.toml."""
    found = re.search(rf'^{re.escape(name)} = "(.*)"$', (ROOT / "pyproject.toml").read_text(encoding="utf-8"), re.M)
    return found[1]


# ---- what goes in


def library():
    """The shared library, built from the static one where it is not there."""
    path = SHARED / LIBRARY
    if not path.is_file():
        run = subprocess.run([str(ROOT / "tools" / "shared")], stdout=subprocess.PIPE, stderr=subprocess.STDOUT, text=True)
        if run.returncode != 0 or not path.is_file():
            raise Missing(f"{path} is not there, and tools/shared could not write it; prove and build it with:"
                          f" tools/build sukhlent && tools/shared\n{run.stdout}")
    return path.resolve()


def programs():
    """The proved programs."""
    paths = [ROOT / "target" / "bin" / name for name in PROGRAMS]
    gone = [path.name for path in paths if not path.is_file()]
    if gone:
        raise Missing(f"the programs {', '.join(gone)} are not in target/bin; prove and build them with: tools/build {' '.join(gone)}")
    return paths


def limited():
    """Whether the extension is on the limited interface."""
    return sys.version_info >= LIMITED and not sysconfig.get_config_var("Py_GIL_DISABLED")


def suffix():
    """How the extension's file ends."""
    return ".abi3.so" if limited() else sysconfig.get_config_var("EXT_SUFFIX")


def extension(folder):
    """Compiles the extension into a folder; Missing where there is no compiler or no Python.h."""
    include = sysconfig.get_paths()["include"]
    compiler = os.environ.get("CC", "cc")
    if not (Path(include) / "Python.h").is_file():
        raise Missing(f"{include}/Python.h is not there (Debian's python3-dev has it)")
    if shutil.which(compiler.split()[0]) is None:
        raise Missing(f"there is no C compiler called {compiler}; CC names another one")
    folder.mkdir(parents=True, exist_ok=True)
    path = folder / f"_calls{suffix()}"
    new = folder / f"{path.name}.{os.getpid()}"
    interface = [f"-DPy_LIMITED_API=0x{LIMITED[0]:02x}{LIMITED[1]:02x}0000"] if limited() else []
    command = [*compiler.split(), "-O2", "-fPIC", "-shared", "-Wall", "-Wextra", "-Wno-unused-parameter", *interface,
               f"-I{ROOT / 'include'}", f"-I{include}", str(ROOT / "python" / "extension" / "calls.c"), "-o", str(new), "-ldl", "-pthread"]
    run = subprocess.run(command, stdout=subprocess.PIPE, stderr=subprocess.STDOUT, text=True)
    if run.returncode != 0:
        raise Missing(f"{compiler} could not compile python/extension/calls.c:\n{run.stdout}")
    new.rename(path)
    return path


def sources():
    """The files of the package, as they are named in it."""
    files = [path for path in sorted(PACKAGE.rglob("*")) if path.suffix == ".py" or path.name == "py.typed"]
    return {f"sukhlent/{path.relative_to(PACKAGE)}": path.read_bytes() for path in files if "__pycache__" not in path.parts}


# ---- wheels


def metadata():
    """What pip says of the package."""
    lines = [
        "Metadata-Version: 2.1",
        f"Name: {field('name')}",
        f"Version: {version()}",
        f"Summary: {field('description')}",
        "License: MIT",
        f"Requires-Python: {field('requires-python')}",
        *(f"Classifier: {name}" for name in re.findall(r'^    "(.* :: .*)",$', (ROOT / "pyproject.toml").read_text(), re.M)),
        "Description-Content-Type: text/markdown",
        "",
        (ROOT / "README.md").read_text(encoding="utf-8"),
    ]
    return "\n".join(lines)


def glibc(contents):
    """The least C library, the N of glibc 2.N, that programs and libraries need; None where they name none."""
    return max((int(number) for held in contents for number in re.findall(rb"\0GLIBC_2\.(\d+)", held)), default=None)


def machine(files):
    """For which machine a wheel is: by the C library that its files need, where they name one (PEP 600)."""
    here = re.sub(r"[-.]", "_", sysconfig.get_platform())
    least = glibc(files.values())
    return here if least is None else re.sub(r"^linux_", f"manylinux_2_{max(least, OLDEST)}_", here)


def tag(compiled, files):
    """For which Python and machine a wheel of these files is."""
    here = f"cp{sys.version_info[0]}{sys.version_info[1]}"
    python = "py3-none" if not compiled else f"cp{LIMITED[0]}{LIMITED[1]}-abi3" if limited() else f"{here}-{here}"
    return f"{python}-{machine(files)}"


def information(name):
    """The files beside the package that say what it is; RECORD is written with the wheel."""
    command, function = re.search(r'^\[project\.scripts\]\n(\w+) = "(.*)"$', (ROOT / "pyproject.toml").read_text(), re.M).groups()
    said = f"Wheel-Version: 1.0\nGenerator: sukhlent\nRoot-Is-Purelib: false\nTag: {name}\n"
    return {
        "METADATA": metadata().encode(),
        "WHEEL": said.encode(),
        "entry_points.txt": f"[console_scripts]\n{command} = {function}\n".encode(),
        "LICENSE": (ROOT / "LICENSE").read_bytes(),
    }


def digest(content):
    return "sha256=" + base64.urlsafe_b64encode(hashlib.sha256(content).digest()).rstrip(b"=").decode()


def written(folder, files, name):
    """A wheel of these files; one that begins with a number sign or is a program may be run."""
    beside = f"{field('name')}-{version()}.dist-info"
    files = {**files, **{f"{beside}/{key}": content for key, content in information(name).items()}}
    record = "".join(f"{key},{digest(content)},{len(content)}\n" for key, content in files.items())
    files[f"{beside}/RECORD"] = f"{record}{beside}/RECORD,,\n".encode()
    wheel = Path(folder) / f"{field('name')}-{version()}-{name}.whl"
    wheel.parent.mkdir(parents=True, exist_ok=True)
    with zipfile.ZipFile(wheel, "w", zipfile.ZIP_DEFLATED) as archive:
        for key, content in files.items():
            entry = zipfile.ZipInfo(key, (1980, 1, 1, 0, 0, 0))
            runs = key.endswith(".so") or key.startswith("sukhlent/bin/")
            entry.external_attr = (0o100755 if runs else 0o100644) << 16
            entry.compress_type = zipfile.ZIP_DEFLATED
            archive.writestr(entry, content)
    return wheel.name


def compiled():
    """The extension as a file of the package, or none with the reason."""
    with tempfile.TemporaryDirectory() as folder:
        try:
            path = extension(Path(folder))
        except Missing as missing:
            print(f"sukhlent: no extension, the package goes through ctypes: {missing}", file=sys.stderr)
            return {}
        return {f"sukhlent/{path.name}": path.read_bytes()}


# ---- the backend


def get_requires_for_build_wheel(config_settings=None):
    return []


def get_requires_for_build_editable(config_settings=None):
    return []


def get_requires_for_build_sdist(config_settings=None):
    return []


def build_wheel(wheel_directory, config_settings=None, metadata_directory=None):
    """The package with its library, programs and extension."""
    files = {**sources(), f"sukhlent/{LIBRARY}": library().read_bytes()}
    files.update({f"sukhlent/bin/{path.name}": path.read_bytes() for path in programs()})
    made = compiled()
    files.update(made)
    return written(wheel_directory, files, tag(made, files))


def build_editable(wheel_directory, config_settings=None, metadata_directory=None):
    """A pointer to the clone, whose library and extension are built where they are missing."""
    library()
    try:
        extension(SHARED)
    except Missing as missing:
        print(f"sukhlent: no extension, the package goes through ctypes: {missing}", file=sys.stderr)
    return written(wheel_directory, {"sukhlent.pth": f"{PACKAGE.parent}\n".encode()}, tag({}, {}))


def build_sdist(sdist_directory, config_settings=None):
    raise UnsupportedOperation("there is no source distribution: the library is proved and built in a clone")


def main(words):
    try:
        if words == ["extension"]:
            print(extension(SHARED).relative_to(ROOT))
        elif words[:1] == ["wheel"] and len(words) <= 2:
            folder = Path(words[1] if words[1:] else ROOT / "target" / "wheel")
            print(folder / build_wheel(folder))
        else:
            sys.exit(__doc__)
    except Missing as missing:
        sys.exit(f"sukhlent: {missing}")


if __name__ == "__main__":
    main(sys.argv[1:])
