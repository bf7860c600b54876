"""A package for Debian and its kin, of what tools/install has put below a folder: one package with all of it, below /usr.

It is an archive of three parts (deb(5)), written here, so that its bytes do not depend on the dpkg at hand.
"""

import hashlib

from .archives import gzipped, tarred
from .entries import Entry

CONTROL = """Package: sukhlent
Version: {version}
Architecture: amd64
Maintainer: {maintainer}
Installed-Size: {size}
Depends: libc6 (>= 2.{glibc}), python3 (>= {python})
Section: science
Priority: optional
Description: {about}
 Reduces generator lists to graphs with local Cliffords, applies gates and
 measurements, and compares states, by functions that are proved to meet
 their contracts. Libraries and headers for C and C++, the command sukhlent,
 and a Python package.
"""

#: where Debian's python3 looks
PACKAGE = "lib/python3/dist-packages/sukhlent"

#: before the files go: what Python has compiled beside them, which dpkg does not know
BEFORE_REMOVAL = f"""#!/bin/sh
set -e
find "$DPKG_ROOT/usr/{PACKAGE}" -name __pycache__ -type d -prune -exec rm -rf {{}} +
"""

#: the command, by Debian's own Python
COMMAND = b"""#!/usr/bin/python3
import sys

from sukhlent.command import main

sys.exit(main())
"""

#: folders and files that Debian has elsewhere
MOVED = {
    "share/sukhlent/python/sukhlent/": f"{PACKAGE}/",
    "share/zsh/site-functions/": "share/zsh/vendor-completions/",
    "share/doc/sukhlent/LICENSE": "share/doc/sukhlent/copyright",
    "share/doc/sukhlent/CHANGELOG.md": "share/doc/sukhlent/changelog",
}

#: what is by gzip there
BY_GZIP = ("share/man/", "share/doc/sukhlent/changelog")

#: what dpkg does itself, and what is another file here
LEFT_OUT = ("share/sukhlent/installed", "bin/sukhlent")


def _named(name):
    for here, there in MOVED.items():
        if name.startswith(here):
            return there + name[len(here) :]
    return name


def _placed(held):
    """A file of an installation as Debian has it: libraries do not run, pages are by gzip."""
    name = _named(held.name)
    if name.startswith(BY_GZIP):
        return Entry(f"usr/{name}.gz", gzipped(held.content))
    return Entry(f"usr/{name}", held.content, held.runs and ".so" not in name, held.link)


def placed(installed):
    """The files of the package, below /usr; the Python package finds its library and its programs by two links."""
    files = [_placed(held) for held in installed if held.name not in LEFT_OUT]
    files.append(Entry("usr/bin/sukhlent", COMMAND, runs=True))
    files.append(Entry(f"usr/{PACKAGE}/libsukhlent.so", link="../../../libsukhlent.so"))
    return [*files, Entry(f"usr/{PACKAGE}/bin", link="../../../../libexec/sukhlent")]


def _control(files, said):
    """The package's own data: what it is, its sums, its script, its library, and that the linker's cache is to be renewed."""
    size = (sum(len(held.content) for held in files) + 1023) // 1024
    plain = sorted((held for held in files if not held.link), key=lambda held: held.name)
    sums = "".join(f"{hashlib.md5(held.content).hexdigest()}  {held.name}\n" for held in plain)
    return [
        Entry("control", CONTROL.format(size=size, **said).encode()),
        Entry("md5sums", sums.encode()),
        Entry("prerm", BEFORE_REMOVAL.encode(), runs=True),
        Entry("shlibs", "libsukhlent {series} sukhlent (>= {version})\n".format(**said).encode()),
        Entry("triggers", b"activate-noawait ldconfig\n"),
    ]


def _part(name, content, time):
    """A member of the archive, to an even length."""
    head = f"{name:<16}{time:<12}{0:<6}{0:<6}{'100644':<8}{len(content):<10}`\n"
    return head.encode() + content + b"\n" * (len(content) % 2)


def packaged(files, said, time):
    """The package: the version of its form, its own data, its files."""
    control = gzipped(tarred(_control(files, said), time, ".", owner="root"))
    data = gzipped(tarred(files, time, ".", folders=True, owner="root"))
    parts = [("debian-binary", b"2.0\n"), ("control.tar.gz", control), ("data.tar.gz", data)]
    return b"!<arch>\n" + b"".join(_part(name, content, time) for name, content in parts)
