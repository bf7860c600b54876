"""Writes random calls with their answers on this machine, sound and damaged, of every call that the header declares.

    python3 record.py include/sukhlent.h libsukhlent.so CALLS SEED FOLDER

FOLDER/calls.bin has them; FOLDER/changed.bin has the first of them up to call 50, whose answer is another there. Fails where a
call of the header has no entry in sound.py, or was not often enough accepted and refused.
"""
import io
import sys
from pathlib import Path

from recorder import Recorder
from sound import Sound

CHANGED = 50


def entries(recorder, sound):
    """The methods of `sound`, by call."""
    found = {name: sound.entry(name) for name in recorder.calls}
    missing = [name for name, entry in found.items() if entry is None]
    if missing:
        raise SystemExit(f"no entry in tools/replay/sound.py for {', '.join(missing)}")
    return found


def changed(recorder, written):
    """The first calls, with another answer of the last."""
    answer, end = recorder.places[CHANGED]
    content = bytearray(written[:end])
    content[answer] ^= 1
    return content


def main():
    header, library, calls, seed, folder = sys.argv[1:]
    text = Path(header).read_text(encoding="utf-8")
    out = io.BytesIO()
    recorder = Recorder(text, library, int(seed), out)
    made = entries(recorder, Sound(recorder, text))
    while recorder.made < int(calls):
        recorder.random.choice(list(made.values()))()
    Path(folder, "calls.bin").write_bytes(out.getbuffer())
    Path(folder, "changed.bin").write_bytes(changed(recorder, out.getbuffer()))
    for name in made:
        print(f"{name}: {recorder.accepted[name]} accepted, {recorder.refused[name]} refused")
    print(f"{recorder.made} calls of {len(made)} functions, {sum(recorder.accepted.values())} accepted")
    least = int(calls) // 4000
    few = [name for name in made if name != "version" and min(recorder.accepted[name], recorder.refused[name]) < least]
    if few:
        raise SystemExit(f"fewer than {least} accepted or refused: {', '.join(few)}")


if __name__ == "__main__":
    main()
