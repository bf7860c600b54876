"""What was released, unpacked into empty folders and used there: from C, C++, Python, the shell, node and chromium."""

import functools
import http.server
import os
import re
import subprocess
import sys
import tempfile
import threading
import unittest
from pathlib import Path

from tests.places import ROOT
from tests.released import VERSION, needed, release, run
from tests.test_install import CMAKE, PRINTED, SOURCE

IN_C = """cmake_minimum_required(VERSION 3.13)
project(first C)
find_package(sukhlent REQUIRED)
add_executable(shared first.c)
target_link_libraries(shared sukhlent::sukhlent)
add_executable(static first.c)
target_link_libraries(static sukhlent::static)
"""
CODE = """from sukhlent import State, calls, library
print(State.zeros(1).generators(), calls.TAKEN, library.PATH, sep="")
"""
STATES = (ROOT / "crates/reduce/stdin").read_text()
RECORD = (ROOT / "crates/reduce/stdout").read_text()

#: nothing of the clone or of the caller's environment
OURS = ("PYTHON", "SUKHLENT", "PIP", "PKG_CONFIG")
BARE = {name: value for name, value in os.environ.items() if not name.startswith(OURS)}
BARE.update(PIP_NO_INDEX="1", PIP_DISABLE_PIP_VERSION_CHECK="1", PYTHONDONTWRITEBYTECODE="1")


def compiled(folder):
    """The programs and libraries below a folder."""
    return [path for path in folder.rglob("*") if path.is_file() and path.read_bytes()[:4] == b"\x7fELF"]


class Used(unittest.TestCase):
    """What the tests of one file of the release share."""

    needs = ("release",)

    @classmethod
    def setUpClass(cls):
        needed(*cls.needs)
        cls.made = release()

    def setUp(self):
        folder = tempfile.TemporaryDirectory(dir=self.made.room)
        self.addCleanup(folder.cleanup)
        self.folder = Path(folder.name)

    def linked(self, compiler, source, top, *more):
        """A program that pkg-config's words make of a file in C or C++."""
        package = {**BARE, "PKG_CONFIG_LIBDIR": str(top / "lib/pkgconfig")}
        self.assertEqual(run("pkg-config", "--modversion", "sukhlent", env=package), f"{VERSION}\n")
        flags = run("pkg-config", "--cflags", "--libs", "sukhlent", env=package).split()
        run(compiler, source, *flags, *more, "-o", self.folder / "program")
        return self.folder / "program"

    def by_cmake(self, text, top, name, *more):
        """A build by CMake, in a folder of this name, of what find_package finds below a folder, and first.c."""
        (self.folder / "first.c").write_text(SOURCE)
        (self.folder / "CMakeLists.txt").write_text(text)
        run("cmake", "-S", self.folder, "-B", self.folder / name, f"-DCMAKE_PREFIX_PATH={top}", *more, env=BARE)
        run("cmake", "--build", self.folder / name)
        return self.folder / name

    def examples(self, top, emulated, *more):
        """The examples for C and C++ print what is stored, with the shared and with the static library."""
        for compiler, source in (("cc", ROOT / "examples/c/record.c"), ("c++", ROOT / "examples/cpp/record.cpp")):
            due = source.with_suffix(".out").read_text()
            program = self.linked(compiler, source, top, f"-Wl,-rpath,{top}/lib", *more)
            self.assertIn(str(top), run("ldd", program))
            self.assertEqual(run(*emulated, program), due)
            self.assertEqual(run(*emulated, self.linked(compiler, source, top, "-static", *more)), due)

    def packages(self, top):
        """What must be there beside the libraries."""
        self.assertEqual((top / "share/doc/sukhlent/LICENSE").read_bytes(), (ROOT / "LICENSE").read_bytes())
        for name in re.findall(r"!\[[^\]]*\]\(([^)]*)\)", (ROOT / "README.md").read_text()):
            self.assertEqual((top / "share/doc/sukhlent" / name).read_bytes(), (ROOT / name).read_bytes())
        self.assertIn(".TH SUKHLENT 3", (top / "share/man/man3/sukhlent.3").read_text())

    def command(self, command, **more):
        """The command, and the programs below it."""
        there = {"env": {**BARE, **more}, "cwd": "/"}
        self.assertEqual(run(command, "--version", **there), f"sukhlent {VERSION}\n")
        self.assertEqual(run(command, "reduce", input=STATES, **there), RECORD)
        self.assertIn("y re im p", run(command, "amplitudes", input=STATES, **there))

    def python(self, path, library):
        """The package on a path, with the extension and the library that is there."""
        said = run(sys.executable, "-c", CODE, env={**BARE, "PYTHONPATH": str(path)}, cwd="/")
        self.assertEqual(said, f"+Z\nextension{library}\n")


class Archives(Used):
    """The archives for x86-64."""

    needs = ("release", "x86-64-v3")

    def test_each_is_used_from_c_c_plus_plus_python_and_the_shell(self):
        for processor in ("x86-64", "x86-64-v3"):
            with self.subTest(processor=processor):
                top = self.made.unpacked(f"-{processor}.tar.gz")
                self.assertIn(f"target={processor}\n", (top / "lib/pkgconfig/sukhlent.pc").read_text())
                self.examples(top, [ROOT / "tools/replay/emulate", processor])
                self.packages(top)
                self.command(top / "bin/sukhlent")
                self.python(top / "share/sukhlent/python", top / "lib/libsukhlent.so")

    def test_each_is_found_by_cmake(self):
        classes = ROOT / "examples/cpp/record.cpp"
        due = {"shared": PRINTED, "static": PRINTED, "classes": classes.with_suffix(".out").read_text()}
        for processor in ("x86-64", "x86-64-v3"):
            with self.subTest(processor=processor):
                top = self.made.unpacked(f"-{processor}.tar.gz")
                build = self.by_cmake(CMAKE.format(version=VERSION, classes=classes), top, processor)
                said = {name: run(ROOT / "tools/replay/emulate", processor, build / name) for name in due}
                self.assertEqual(said, due)
                self.assertIn(str(top), run("ldd", build / "shared"))

    def test_the_one_for_v3_has_another_library(self):
        plain, v3 = (self.made.unpacked(f"-{name}.tar.gz") for name in ("x86-64", "x86-64-v3"))
        for name in ("libsukhlent.a", f"libsukhlent.so.{VERSION}"):
            self.assertNotEqual((plain / "lib" / name).read_bytes(), (v3 / "lib" / name).read_bytes())
            code = [run("objdump", "-d", top / "lib" / name) for top in (plain, v3)]
            self.assertEqual([bool(re.search(r"%ymm\d", text)) for text in code], [False, True], name)


class Arm(Used):
    """The archive for aarch64, by its compiler and under qemu."""

    needs = ("release", "aarch64")
    emulated = ["env", "QEMU_LD_PREFIX=/usr/aarch64-linux-gnu", ROOT / "tools/replay/emulate", "aarch64"]

    def setUp(self):
        super().setUp()
        self.top = self.made.unpacked("-aarch64.tar.gz")

    def test_it_is_used_from_c(self):
        source = ROOT / "examples/c/record.c"
        for words in (["-static"], [f"-Wl,-rpath,{self.top}/lib"]):
            program = self.linked("aarch64-linux-gnu-gcc", source, self.top, *words)
            self.assertEqual(run(*self.emulated, program), source.with_suffix(".out").read_text())
        needs = re.findall(r"\(NEEDED\).*\[(.*)\]", run("readelf", "-d", program))
        self.assertEqual(needs[0], f"libsukhlent.so.{run(ROOT / 'tools/version', '--series').strip()}")
        self.packages(self.top)

    def test_it_is_found_by_cmake(self):
        words = ["SYSTEM_NAME=Linux", "SYSTEM_PROCESSOR=aarch64", "C_COMPILER=aarch64-linux-gnu-gcc"]
        build = self.by_cmake(IN_C, self.top, "aarch64", *(f"-DCMAKE_{word}" for word in words))
        for name in ("shared", "static"):
            self.assertEqual(run(*self.emulated, build / name), PRINTED)

    def test_all_that_is_compiled_in_it_is_for_aarch64(self):
        library = self.top / "lib" / f"libsukhlent.so.{VERSION}"
        self.assertIn("AArch64", run("readelf", "-h", library))
        self.assertEqual(re.findall(r"\(NEEDED\).*\[(.*)\]", run("readelf", "-d", library)), ["libc.so.6"])
        self.assertEqual({path.resolve() for path in compiled(self.top)}, {library})


class Wheel(Used):
    """The wheel, in a fresh virtual environment without a network."""

    def test_it_is_installed_and_used(self):
        wheel = self.made.file("-.*.whl")
        self.assertRegex(wheel.name, r"-cp311-abi3-manylinux_2_\d+_x86_64.whl$")
        venv = self.folder / "venv"
        run(sys.executable, "-m", "venv", venv, env=BARE)
        run(venv / "bin/python", "-m", "pip", "install", "--no-compile", wheel, env=BARE, cwd="/")
        checked = run(venv / "bin/python", "-m", "pip", "check", env=BARE, cwd="/")
        self.assertIn("No broken requirements found.", checked)
        said = run(venv / "bin/python", "-c", CODE, env=BARE, cwd="/").splitlines()
        self.assertEqual(said[0], "+Z")
        self.assertTrue(said[1].startswith(f"extension{venv.resolve()}/"), said)
        self.command(venv / "bin/sukhlent")

    def test_its_tag_names_the_c_library_that_its_files_need(self):
        run(sys.executable, "-m", "zipfile", "-e", self.made.file("-.*.whl"), self.folder)
        named = [run("readelf", "-V", path) for path in compiled(self.folder)]
        self.assertEqual(len(named), 5)  # the library, the extension, three programs
        most = max(int(number) for text in named for number in re.findall(r"Name: GLIBC_2\.(\d+)", text))
        self.assertIn(f"-manylinux_2_{most}_x86_64", self.made.file("-.*.whl").name)
        for name in ("README.md", "docs/VERSIONS.md"):
            self.assertEqual(re.findall(r"glibc\s+2\.(\d+)", (ROOT / name).read_text()), [str(most)], name)


class Debian(Used):
    """The package for Debian, installed into an empty root by dpkg, used there, and removed."""

    def dpkg(self, *words):
        """dpkg on an empty root, in which there is no python3 and no libc6."""
        forced = ["--force-depends", "--force-not-root", "--force-script-chrootless"]
        words = ["dpkg", f"--root={self.folder}", f"--log={self.folder}/log", *forced, *words]
        return run(*words, env={**BARE, "PATH": BARE["PATH"] + ":/usr/sbin:/sbin"})

    def setUp(self):
        super().setUp()
        (self.folder / "var/lib/dpkg/updates").mkdir(parents=True)
        (self.folder / "var/lib/dpkg/info").mkdir()
        (self.folder / "var/lib/dpkg/status").write_text("")
        self.package = self.made.file("_amd64.deb")
        self.dpkg("-i", self.package)
        self.usr = self.folder / "usr"

    def test_it_is_used_and_removed(self):
        self.assertEqual(self.dpkg("--verify", "sukhlent"), "")
        self.assertIn("Status: install ok installed", self.dpkg("-s", "sukhlent"))
        source = ROOT / "examples/c/record.c"
        program = self.linked("cc", source, self.usr, f"-Wl,-rpath,{self.usr}/lib")
        self.assertEqual(run(program), source.with_suffix(".out").read_text())
        packages = self.usr / "lib/python3/dist-packages"  # where Debian's python3 looks in its own root
        self.command(self.usr / "bin/sukhlent", PYTHONPATH=str(packages))
        self.python(packages, packages / "sukhlent/libsukhlent.so")
        compiling = {**BARE, "PYTHONPATH": str(packages), "PYTHONDONTWRITEBYTECODE": ""}
        run(self.usr / "bin/sukhlent", "--version", env=compiling)
        self.assertTrue(list(self.usr.rglob("__pycache__")))
        self.dpkg("-r", "sukhlent")
        self.assertEqual([path for path in self.folder.rglob("*") if "usr" in path.relative_to(self.folder).parts], [])

    def test_it_says_what_it_needs_and_keeps_to_the_places_of_debian(self):
        for field, due in (("Package", "sukhlent"), ("Version", VERSION), ("Architecture", "amd64")):
            self.assertEqual(run("dpkg-deb", "-f", self.package, field), f"{due}\n")
        self.assertRegex(run("dpkg-deb", "-f", self.package, "Depends"), r"^libc6 \(>= 2\.\d+\), python3 \(>= 3\.9\)$")
        kept = ["doc/sukhlent/copyright", "doc/sukhlent/changelog.gz", "man/man1/sukhlent.1.gz"]
        for name in (*kept, "zsh/vendor-completions/_sukhlent", "fish/vendor_completions.d/sukhlent.fish"):
            self.assertTrue((self.usr / "share" / name).is_file(), name)
        listed = run("dpkg-deb", "-c", self.package).splitlines()
        self.assertEqual({line.split()[1] for line in listed}, {"root/root"})
        if subprocess.run(["man", "--version"], capture_output=True, check=False).returncode == 0:
            run("man", "--warnings", "-l", self.usr / "share/man/man3/sukhlent.3.gz")


class Quiet(http.server.SimpleHTTPRequestHandler):
    """A plain file server that says nothing."""

    def log_message(self, *_):
        pass


class Web(Used):
    """The folder for the web, in node, and served and opened in chromium."""

    needs = ("web",)

    def setUp(self):
        super().setUp()
        self.top = self.made.unpacked("-web.tar.gz")

    def test_it_is_used_from_node(self):
        (self.folder / "target").mkdir()
        (self.folder / "target/web").symlink_to(self.top)
        (self.folder / "examples").symlink_to(ROOT / "examples")
        page = (ROOT / "docs/PAGE.md").read_text()
        due = re.search(r"node examples/js/first\.mjs\ntarget/web\n(.*?)```", page, re.S)[1]
        links = ["--preserve-symlinks", "--preserve-symlinks-main"]
        self.assertEqual(run("node", *links, self.folder / "examples/js/first.mjs", env=BARE), due)

    def test_it_is_opened_in_chromium(self):
        handler = functools.partial(Quiet, directory=str(self.top))
        with http.server.ThreadingHTTPServer(("127.0.0.1", 0), handler) as server:
            threading.Thread(target=server.serve_forever, daemon=True).start()
            address = f"http://127.0.0.1:{server.server_address[1]}/"
            said = run("node", ROOT / "web/tests/opened.mjs", address, env=BARE)
            server.shutdown()
        self.assertEqual(said, "+XX\n+ZZ\n")


if __name__ == "__main__":
    unittest.main()
