"""Archives that are the same bytes each time: entries by name, one time, no owner of this machine."""

import gzip
import io
import tarfile


def gzipped(content):
    """By gzip, without a name and a time."""
    return gzip.compress(content, 9, mtime=0)


def _folders(entries):
    """The folders above the entries."""
    names = set()
    for held in entries:
        parts = held.name.split("/")[:-1]
        names |= {"/".join(parts[:k]) for k in range(1, len(parts) + 1)}
    return names


def _head(name, time, mode, kind, owner):
    head = tarfile.TarInfo(name)
    head.mtime, head.mode, head.type = time, mode, kind
    head.uname = head.gname = owner
    return head


def tarred(entries, time, top, folders=False, owner=""):
    """A tar of entries, each below `top`; with the folders too, and a name of their owner, where a reader wants them."""
    raw = io.BytesIO()
    with tarfile.open(fileobj=raw, mode="w", format=tarfile.GNU_FORMAT) as archive:
        for name in sorted(_folders(entries)) if folders else ():
            archive.addfile(_head(f"{top}/{name}", time, 0o755, tarfile.DIRTYPE, owner))
        for held in sorted(entries, key=lambda held: held.name):
            name = f"{top}/{held.name}"
            if held.link:
                head = _head(name, time, 0o777, tarfile.SYMTYPE, owner)
                head.linkname = held.link
                archive.addfile(head)
            else:
                head = _head(name, time, 0o755 if held.runs else 0o644, tarfile.REGTYPE, owner)
                head.size = len(held.content)
                archive.addfile(head, io.BytesIO(held.content))
    return raw.getvalue()
