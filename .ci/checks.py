"""What the checks of the real program have in common."""
import os, shutil, subprocess

DATA = os.path.join(os.path.dirname(os.path.abspath(__file__)), "data")


class Checks:
    """Counts what came as it was wanted, and prints what did not."""

    def __init__(self):
        self.passed = self.failed = 0

    def same(self, name, wanted, got):
        self.passed += wanted == got
        self.failed += wanted != got
        if wanted != got:
            print(f"failed: {name}\nwanted: {wanted!r:.2000}\ngot:    {got!r:.2000}")

    def told(self, what):
        """Prints the sum; the status to end with."""
        print(f"{what}: {self.passed} passed, {self.failed} failed")
        return int(self.failed > 0)


def libraries_are_built():
    """Builds the libraries that refuse calls, where there is a compiler."""
    compiler = os.environ.get("CC", "cc")
    return shutil.which(compiler) and not any(
        subprocess.run([compiler, "-shared", "-fPIC", "-o", f"{what}.so", f"{DATA}/refused_{what}.c"]).returncode for what in ("call", "memory"))


def preloaded(library, **words):
    """How a program is run with such a library."""
    return {"env": {**os.environ, **words, "LD_PRELOAD": os.path.abspath(library)}}
