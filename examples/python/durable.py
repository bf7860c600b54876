"""A run that survives a power cut: a source sends photons through three places, and each step is in a file before it is
answered. The process that runs it is killed twice, and a line is torn; the next process goes on where the file says, and the
run ends as one that was never killed."""

import os
import signal
import tempfile
import warnings

from sukhlent import Session, State


def run(path, photons, dies=-1):
    """Goes on to so many photons, of three steps each. The bit by lot is the photon's own, so that runs can be compared."""
    with Session(path, State.zeros(3), every=50) as session:
        while session.steps < 3 * photons:
            if session.steps == dies:
                os.kill(os.getpid(), signal.SIGKILL)
            photon, part = divmod(session.steps, 3)
            here, there = photon % 3, (photon + 1) % 3
            if part == 1:
                session.cz(here, there)
            elif part == 2:
                session.measure("X" if photon % 2 else "Y", here, source=photon)
            elif photon < 2:
                session.h(there)  # the first photons start in +Z
            else:
                session.renew(there, "+X")
        return session.state


with tempfile.TemporaryDirectory() as folder:
    path = os.path.join(folder, "run")
    for dies in (37, 70):
        child = os.fork()
        if child == 0:
            run(path, 40, dies)
        print("killed:", os.WTERMSIG(os.waitpid(child, 0)[1]) == signal.SIGKILL)
    with open(path, "ab") as file:
        file.write(b"70 cz 2")  # what a power cut left of a line
    with warnings.catch_warnings(record=True):
        warnings.simplefilter("always")
        with Session(path) as session:
            print("after", session.steps, "steps, torn:", session.torn, "last:", session.last[0])
    print("as if it was never killed:", run(path, 40) == run(os.path.join(folder, "whole"), 40))
