"""What the tests of the text and of the command share."""
import io
import pathlib
import subprocess
import sys

ROOT = pathlib.Path(__file__).resolve().parent.parent.parent
try:
    import dihkelu
except ImportError:
    sys.path.insert(0, str(ROOT / "python"))
    import dihkelu
from dihkelu import command

PACKAGE = pathlib.Path(dihkelu.__file__).resolve().parent.parent
TRAIN = ROOT / "c" / "build" / "train"


def build_train():
    """The program `train` in C."""
    subprocess.run(["make", "-s", "-C", str(ROOT / "c"), "build/train"], check=True, capture_output=True)


def train(data):
    """What `train` prints of a sheet's bytes."""
    return subprocess.run([str(TRAIN)], input=data, capture_output=True, check=False).stdout.decode()


class Stream(io.TextIOWrapper):
    def __init__(self, given=b""):
        super().__init__(io.BytesIO(given), encoding="utf-8", write_through=True)

    def bytes(self):
        self.flush()
        return self.buffer.getvalue()


def run(*words, given=b""):
    """The command in this process: its status, standard output and standard error."""
    kept = sys.stdin, sys.stdout, sys.stderr
    sys.stdin, sys.stdout, sys.stderr = Stream(given.encode() if isinstance(given, str) else given), Stream(), Stream()
    try:
        try:
            status = command.main([str(word) for word in words])
        except SystemExit as ended:
            status = ended.code
        return status, sys.stdout.bytes(), sys.stderr.bytes().decode()
    finally:
        sys.stdin, sys.stdout, sys.stderr = kept
