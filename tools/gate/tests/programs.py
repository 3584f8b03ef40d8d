"""Shell scripts in the place of a program, and what a command of the gate prints about them."""
import contextlib
import io
import tempfile
import unittest

from gate.files import write


@contextlib.contextmanager
def program(script, **files):
    """The path of a program that is a shell script, in a folder with files beside it."""
    with tempfile.TemporaryDirectory() as room:
        write(f"{room}/program", f"#!/bin/sh\n{script}\n", 0o755)
        for name, text in files.items():
            write(f"{room}/{name}", text)
        yield f"{room}/program"


def ran(main, *words, **how):
    """The status of a command, and all that it prints."""
    with contextlib.redirect_stdout(io.StringIO()) as said, contextlib.redirect_stderr(said):
        try:
            return main(list(words), **how), said.getvalue()
        except SystemExit as end:
            return end.code if isinstance(end.code, int) else 1, f"{said.getvalue()}{end}"


def run_over(files, main, *words):
    """The same over a new folder with these files, which ROOM stands for in the command's words. A
    file that begins with #! can be run."""
    with tempfile.TemporaryDirectory() as room:
        for name, text in files.items():
            write(f"{room}/{name}", text, 0o755 if text.startswith("#!") else None)
        return ran(main, *[it.replace("ROOM", room) for it in words])


class CommandTest(unittest.TestCase):
    def check(self, run, rows):
        """Checks rows of a name, a status, a text that must be printed, and what `run` is given."""
        for what, status, text, *given in rows:
            with self.subTest(what):
                ended, printed = run(*given)
                self.assertIn(text, printed)
                self.assertEqual(status, ended, printed)
