"""A library that refuses one call of a program that is run with it: see tests/refuse.c."""
import errno
import os
import pathlib
import subprocess

HOME = pathlib.Path(__file__).resolve().parent.parent.parent


class Refusing:
    """The library in a folder, and the file by which it says that it refused a call."""

    def __init__(self, folder):
        self.library, self.hit = folder / "refuse.so", folder / "hit"
        subprocess.run(["cc", "-shared", "-fPIC", "-O1", "-o", self.library, HOME / "tests/refuse.c", "-ldl"], check=True)
        self.library.chmod(0o755)

    def env(self, at, call=None, error=errno.EIO):
        """The environment of a program whose call number `at` is refused with an error: of the calls of a name, or of the requests for
        memory."""
        env = dict(os.environ, LD_PRELOAD=str(self.library), FAIL_AT=str(at), FAIL_ERROR=str(error), HIT_FILE=str(self.hit))
        return dict(env, FAIL_CALL=call) if call else env

    def was_hit(self):
        """Whether a call was refused since this was asked for last."""
        was_hit = self.hit.exists()
        self.hit.unlink(missing_ok=True)
        return was_hit
