"""What `tools/install` installs: programs in C and C++ are compiled against it, and its command and package run."""

import os
import pty
import re
import select
import shutil
import subprocess
import sys
import tempfile
import time
import unittest
from pathlib import Path

from tests.places import ROOT

SOURCE = """#include <stdio.h>
#include <sukhlent.h>
int main(void)
{
    uint64_t neighbours[1] = {0};
    uint8_t codes[1] = {SUKHLENT_GATE_H};
    uint8_t refusal = sukhlent_gate(1, neighbours, 1, codes, 1, 0, 1, SUKHLENT_GATE_X);
    printf("%d %s %d\\n", refusal, sukhlent_refusal_text(refusal), sukhlent_version() == SUKHLENT_VERSION);
    return 0;
}
"""
INSTALL = ROOT / "tools" / "install"
TO_COMPILE = {
    "include/sukhlent.h",
    "include/sukhlent.hpp",
    "include/sukhlent_record.h",
    "lib/cmake/sukhlent/sukhlent-config-version.cmake",
    "lib/cmake/sukhlent/sukhlent-config.cmake",
    "lib/pkgconfig/sukhlent.pc",
}
CMAKE = """cmake_minimum_required(VERSION 3.13)
project(first C CXX)
find_package(sukhlent {version} REQUIRED)
add_executable(shared first.c)
target_link_libraries(shared sukhlent::sukhlent)
add_executable(static first.c)
target_link_libraries(static sukhlent::static)
add_executable(classes {classes})
target_compile_features(classes PRIVATE cxx_std_17)
target_link_libraries(classes sukhlent::sukhlent)
"""
PRINTED = "8 a qubit number is n or more, or a qubit is named twice, or a pivot's pair has no edge 1\n"


def run(*command, **more):
    """What a command prints, where it ends well."""
    done = subprocess.run([str(word) for word in command], capture_output=True, text=True, timeout=120, **more)
    if done.returncode != 0 or done.stderr:
        raise AssertionError(f"{command}: {done.returncode}\n{done.stdout}{done.stderr}")
    return done.stdout


def flags(folder, *what):
    """What pkg-config says, or, where it is not installed, its file."""
    if shutil.which("pkg-config"):
        return run("pkg-config", *what, "sukhlent", env={**os.environ, "PKG_CONFIG_PATH": str(folder)}).split()
    print("no pkg-config here: its file is read by the test", file=sys.stderr)
    text = (folder / "sukhlent.pc").read_text()
    names = {**dict(re.findall(r"^(\w+)=(.*)$", text, re.M)), "pcfiledir": str(folder)}
    fields = dict(re.findall(r"^(\w+): (.*)$", text, re.M))
    said = {"--cflags": "Cflags", "--libs": "Libs", "--modversion": "Version"}
    words = " ".join(fields[said[word]] for word in what)
    while "${" in words:
        words = re.sub(r"\$\{(\w+)\}", lambda found: names[found[1]], words)
    return words.split()


#: what is typed, and the word that it is completed to, if there is one
TYPED = {
    "sukhlent equi": "equivalent",
    "sukhlent draw --la": "--layout",
    "sukhlent job --o": "",
    "sukhlent reduce on": "only.txt",
    "sukhlent nothing": "",
}


def completed_by_zsh(line, typed, folder):
    """What zsh makes of each text at Tab, after a line that is typed first: printed in place of being run."""
    child, terminal = pty.fork()
    if child == 0:
        os.chdir(folder)
        os.environ.update(TERM="dumb", HOME=str(folder))
        os.execvp("zsh", ["zsh", "-f", "-i"])

    def said(keys, end):
        os.write(terminal, keys.encode())
        text, limit = b"", time.monotonic() + 60
        while end not in text and time.monotonic() < limit:
            if select.select([terminal], [], [], 1)[0]:
                text += os.read(terminal, 4096)
        return text.decode()

    try:
        said(f"{line}\r", b"\n")
        said("echo rea''dy\r", b"ready\r\n")
        found = {}
        for keys in typed:  # to the line's begin by Ctrl+A, to its end by Ctrl+E
            text = said(f"{keys}\t\x01echo 'line \x05' e''nd\r", b" end\r\n")
            found[keys] = re.search(r"\nline (.*?) *end\r", text)[1]
        return found
    finally:
        os.close(terminal)
        os.waitpid(child, 0)


class Install(unittest.TestCase):
    @classmethod
    def setUpClass(cls):
        cls.folder = tempfile.TemporaryDirectory()
        cls.prefix = Path(cls.folder.name) / "prefix"
        cls.said = run(INSTALL, cls.prefix)
        cls.package = cls.prefix / "lib" / "pkgconfig"

    @classmethod
    def tearDownClass(cls):
        cls.folder.cleanup()

    def test_the_version_is_the_header_s(self):
        version = re.search(r'VERSION_TEXT "(.*)"', (ROOT / "include" / "sukhlent.h").read_text())[1]
        self.assertEqual(flags(self.package, "--modversion"), [version])
        self.assertIn(f"sukhlent {version} is in {self.prefix}", self.said.splitlines())
        major, minor, _ = version.split(".")
        series = major if major != "0" else f"{major}.{minor}"
        dynamic = run("readelf", "-d", self.prefix / "lib" / f"libsukhlent.so.{version}")
        self.assertIn(f"[libsukhlent.so.{series}]", dynamic)

    def test_programs_in_c_and_c_plus_plus(self):
        words = flags(self.package, "--cflags", "--libs")
        environment = {**os.environ, "LD_LIBRARY_PATH": str(self.prefix / "lib")}
        for compiler, name, standard in (("cc", "first.c", "-std=c99"), ("c++", "first.cc", "-std=c++11")):
            if not shutil.which(compiler):
                print(f"no {compiler} here: its program is not compiled", file=sys.stderr)
                continue
            with self.subTest(compiler=compiler):
                source = self.prefix.parent / name
                source.write_text(SOURCE)
                program = self.prefix.parent / f"{compiler}-program"
                strict = [standard, "-Wall", "-Wextra", "-pedantic", "-Werror"]
                run(compiler, *strict, source, *words, "-o", program)
                self.assertEqual(run(program, env=environment), PRINTED)
                found = f"-Wl,-rpath,{self.prefix}/lib"
                run(compiler, *strict, source, *words, found, "-o", program)
                self.assertEqual(run(program), PRINTED)
                static = self.prefix / "lib" / "libsukhlent.a"
                run(compiler, *strict, f"-I{self.prefix}/include", source, static, "-o", program)
                self.assertEqual(run(program), PRINTED)

    def test_the_lines_to_type_next_are_true(self):
        source = self.prefix.parent / "next.c"
        source.write_text(SOURCE)
        lines = re.findall(r":\s+(export .*)$", self.said, re.M)
        self.assertEqual(len(lines), 4, self.said)
        code = "import sukhlent; print(sukhlent.__file__)"
        compiled = f"cc {source} $(pkg-config --cflags --libs sukhlent) -o {source}.program && {source}.program"
        words = "\n".join(["set -e", *lines, compiled, "command -v sukhlent", f"python3 -c '{code}'"])
        environment = {name: os.environ[name] for name in ("PATH", "HOME") if name in os.environ}
        said = run("sh", "-c", words, env=environment, cwd="/").splitlines(keepends=True)
        self.assertEqual(said[0], PRINTED)
        self.assertEqual(said[1], f"{self.prefix}/bin/sukhlent\n")
        self.assertTrue(said[2].startswith(f"{self.prefix}/share/"), said)

    def test_programs_by_cmake_also_where_the_folder_was_moved(self):
        if not shutil.which("cmake"):
            self.skipTest("no cmake here")
        moved = self.prefix.parent / "moved"
        shutil.copytree(self.prefix, moved, symlinks=True)
        source = self.prefix.parent / "project"
        source.mkdir()
        (source / "first.c").write_text(SOURCE)
        version = flags(moved / "lib" / "pkgconfig", "--modversion")[0]
        major, minor, _ = version.split(".")
        classes = ROOT / "examples" / "cpp" / "record.cpp"
        for asked, found in (("99", False), (f"{major}.{int(minor) + 1}", False), (f"{major}.{minor}", True), (version, True)):
            (source / "CMakeLists.txt").write_text(CMAKE.format(version=asked, classes=classes))
            build = source / asked
            words = ["cmake", "-S", str(source), "-B", str(build), f"-DCMAKE_PREFIX_PATH={moved}"]
            done = subprocess.run(words, capture_output=True, text=True, timeout=120)
            self.assertEqual(done.returncode == 0, found, done.stdout + done.stderr)
        run("cmake", "--build", source / version)
        for name, due in (("shared", PRINTED), ("static", PRINTED), ("classes", classes.with_suffix(".out").read_text())):
            self.assertEqual(run(source / version / name), due)
        self.assertIn(str(moved), run("ldd", source / version / "shared"))
        self.assertNotIn("sukhlent", run("ldd", source / version / "static"))

    def test_the_manual_names_every_call_and_every_command(self):
        header = (ROOT / "include" / "sukhlent.h").read_text()
        page = (self.prefix / "share/man/man3/sukhlent.3").read_text()
        calls = re.findall(r"^uint\d+_t (sukhlent_\w+)\(", header, re.M)
        self.assertEqual(re.findall(r"^\.SS (\w+)$", page, re.M), calls)
        page = (self.prefix / "share/man/man1/sukhlent.1").read_text()
        said = run(self.prefix / "bin" / "sukhlent", "--help")
        commands = re.findall(r"^    (\w+)\b", said, re.M)
        self.assertEqual(re.findall(r"^\.SS (\w+)$", page, re.M), commands)
        if shutil.which("man"):
            environment = {**os.environ, "MANPATH": str(self.prefix / "share" / "man"), "MANWIDTH": "100"}
            for section in "13":
                self.assertIn("sukhlent - a proved graph-state engine", run("man", "--warnings", section, "sukhlent", env=environment))

    def next_line(self, about):
        """A line to type next, by what it is for."""
        (line,) = re.findall(rf"^ *(?:its completion, )?{about}: +(.*)$", self.said, re.M)
        return line

    def test_the_shells_complete_commands_options_and_files(self):
        """bash, zsh and fish, after the line that tools/install prints for each, all to the same."""
        words = [str(ROOT / "tools/needed"), "--install", "shells"]
        needed = subprocess.run(words, capture_output=True, text=True, timeout=600)
        self.assertEqual(needed.returncode, 0, needed.stdout + needed.stderr)
        folder = self.prefix.parent / "files"
        folder.mkdir()
        (folder / "only.txt").write_text("")
        for typed, due in TYPED.items():
            words = f"COMP_WORDS=({typed}); COMP_CWORD={typed.count(' ')}"
            code = f'{self.next_line("bash")}; {words}; _sukhlent; echo "${{COMPREPLY[@]}}"'
            self.assertEqual(run("bash", "-c", code, cwd=folder).split(), [due] if due else [], typed)
            code = f"{self.next_line('fish')}; complete -C '{typed}'"
            said = [line.split("\t")[0] for line in run("fish", "-N", "-c", code, cwd=folder).splitlines()]
            self.assertEqual(said, [due] if due else [], typed)
        lines = completed_by_zsh(self.next_line("zsh"), TYPED, folder)
        for typed, due in TYPED.items():
            whole = typed.rpartition(" ")[0] + f" {due}" if due else typed
            self.assertEqual(lines[typed], whole)

    def test_the_command_and_the_package(self):
        command = self.prefix / "bin" / "sukhlent"
        environment = {name: value for name, value in os.environ.items() if name != "PYTHONPATH"}
        text = (ROOT / "crates" / "reduce" / "stdin").read_text()
        due = (ROOT / "crates" / "reduce" / "stdout").read_text()
        self.assertEqual(run(command, "reduce", input=text, env=environment, cwd="/"), due)
        linked = self.prefix.parent / "linked"
        linked.symlink_to(command)
        self.assertEqual(run(linked, "reduce", input=text, env=environment, cwd="/"), due)
        environment["PYTHONPATH"] = str(self.prefix / "share" / "sukhlent" / "python")
        code = "import sukhlent; print(sukhlent.State.zeros(1).generators(), sukhlent.__file__)"
        said = run(sys.executable, "-c", code, env=environment, cwd="/")
        self.assertTrue(said.startswith("+Z\n") and str(self.prefix) in said, said)


class Places(unittest.TestCase):
    """Where `tools/install` puts what, and that it takes all of it away."""

    def setUp(self):
        folder = tempfile.TemporaryDirectory()
        self.addCleanup(folder.cleanup)
        self.root = Path(folder.name)

    def files(self):
        return {str(path.relative_to(self.root)) for path in self.root.rglob("*") if not path.is_dir()}

    def test_below_destdir_and_away_again(self):
        environment = {**os.environ, "DESTDIR": str(self.root)}
        (self.root / "usr/lib").mkdir(parents=True)
        (self.root / "usr/lib/other").write_text("kept\n")
        said = run(INSTALL, "/usr", env=environment)
        self.assertNotIn(str(self.root), said)
        self.assertLess({f"usr/{name}" for name in TO_COMPILE}, self.files())
        for name in self.files() - {"usr/lib/other"}:
            self.assertNotIn(str(self.root).encode(), (self.root / name).read_bytes(), name)
        run(self.root / "usr/bin/sukhlent", "--version")  # leaves compiled files of Python
        (self.root / "usr/share/sukhlent/python/sukhlent/gone.py").write_text("")
        installed = self.root / "usr/share/sukhlent/installed"
        installed.write_text(installed.read_text() + "share/sukhlent/python/sukhlent/gone.py\n")
        run(INSTALL, "/usr", env=environment)  # over itself: what an older version had is gone
        self.assertNotIn("usr/share/sukhlent/python/sukhlent/gone.py", self.files())
        self.assertEqual(run(INSTALL, "--uninstall", "/usr", env=environment), f"sukhlent is gone from {self.root}/usr\n")
        self.assertEqual(self.files(), {"usr/lib/other"})
        self.assertEqual([path.name for path in (self.root / "usr").iterdir()], ["lib"])

    def test_what_cannot_be_is_said(self):
        cases = [
            (["--uninstall", str(self.root)], {}, f"nothing is installed in {self.root}: it has no share/sukhlent/installed\n"),
            (["usr"], {"DESTDIR": str(self.root)}, "tools/install: with DESTDIR the prefix is a whole path, and usr is not\n"),
        ]
        for words, more, due in cases:
            done = subprocess.run([str(INSTALL), *words], capture_output=True, text=True, env={**os.environ, **more}, timeout=120)
            self.assertEqual((done.returncode, done.stderr), (1, due))
        self.assertEqual(self.files(), set())


class Target(unittest.TestCase):
    """What `tools/install --target` installs."""

    def setUp(self):
        folder = tempfile.TemporaryDirectory()
        self.addCleanup(folder.cleanup)
        self.prefix = Path(folder.name) / "prefix"

    def installed(self, target):
        """The files below the prefix."""
        said = run(INSTALL, "--target", target, self.prefix)
        self.assertRegex(said, rf"(?m)^sukhlent \d+\.\d+\.\d+ for {target} is in {self.prefix}$")
        self.assertRegex(said, r"(?m)^C.*, pkg-config: .*export PKG_CONFIG_")
        return {str(path.relative_to(self.prefix)) for path in self.prefix.rglob("*") if path.is_file()}

    def test_header_library_and_package_file_of_a_target(self):
        self.assertEqual(self.installed("riscv64"), TO_COMPILE | {"lib/libsukhlent.a", "share/sukhlent/installed"})
        self.assertEqual((self.prefix / "include/sukhlent.h").read_bytes(), (ROOT / "include/sukhlent.h").read_bytes())

    def test_x86_64_v3_has_all_that_x86_64_has(self):
        some = {"lib/libsukhlent.a", "lib/libsukhlent.so", "libexec/sukhlent/job"}
        self.assertLess(TO_COMPILE | some, self.installed("x86-64-v3"))
        package = self.prefix / "lib" / "pkgconfig"
        self.assertIn("target=x86-64-v3\n", (package / "sukhlent.pc").read_text())
        source, program = self.prefix / "first.c", self.prefix / "first"
        source.write_text(SOURCE)
        strict = ["-std=c99", "-Wall", "-Wextra", "-pedantic", "-Werror"]
        words = [*flags(package, "--cflags", "--libs"), f"-Wl,-rpath,{self.prefix}/lib"]
        run("cc", *strict, source, *words, "-o", program)
        if " avx2 " in Path("/proc/cpuinfo").read_text():
            self.assertEqual(run(program), PRINTED)
            self.assertIn("sukhlent ", run(self.prefix / "bin/sukhlent", "--version"))

    def test_wasm32_has_its_module(self):
        self.assertIn("lib/sukhlent.wasm", self.installed("wasm32"))
        self.assertEqual((self.prefix / "lib/sukhlent.wasm").read_bytes()[:4], b"\0asm")

    def test_an_unknown_target_is_named_and_nothing_is_installed(self):
        words = [str(INSTALL), "--target", "z80", str(self.prefix)]
        done = subprocess.run(words, capture_output=True, text=True, timeout=120)
        self.assertEqual((done.returncode, done.stderr), (1, "no target z80: tools/cross --list\n"))
        self.assertFalse(self.prefix.exists())
