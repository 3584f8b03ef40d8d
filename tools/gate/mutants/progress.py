"""How far the `rt ci` is that runs beside. It writes what it prints to the file `said` of a folder,
and `status` when it ends."""
import os
import threading
import time

from gate.mutants.scratch import NotProved

# How many seconds pass before the next look at what `rt ci` has printed.
PAUSE = 3


class Progress:
    """The crates that `rt ci` has proved, or has found kept, and those that it has failed to prove.
    What it prints is read once, by all who wait."""

    def __init__(self, folder):
        self.folder, self.place, self.rest, self.lock = folder, 0, b"", threading.Lock()
        self.proved, self.failed = set(), set()

    def look(self):
        """Reads what was printed since the last look."""
        with self.lock:
            if not os.path.exists(f"{self.folder}/said"):
                return
            with open(f"{self.folder}/said", "rb") as it:
                it.seek(self.place)
                more = it.read()
            self.place += len(more)
            *lines, self.rest = (self.rest + more).split(b"\n")
            for line in lines:
                self.take(line.decode(errors="replace").split())

    def take(self, words):
        """Takes the words of a line."""
        if words[:1] != ["rt:"]:
            return
        if words[2:] == ["proved"] or words[2:4] == ["is", "kept:"]:
            self.proved.add(words[1])
        if words[2:4] == ["NOT", "PROVED"]:
            self.failed.add(words[1])

    def wait_for(self, names):
        """Waits until the crates are proved, or have been found kept."""
        while True:
            has_ended = os.path.exists(f"{self.folder}/status")
            # (so that its last lines have reached the file)
            time.sleep(PAUSE)
            self.look()
            lacking = [it for it in names if it not in self.proved]
            failed = [it for it in lacking if has_ended or it in self.failed]
            if failed:
                raise NotProved(f"rt ci has not proved {failed[0]}")
            if not lacking:
                return
