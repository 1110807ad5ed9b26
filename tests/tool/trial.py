"""What the tests of the tool share: how it is run, the sample volumes, a folder of one's own."""
import os
import pathlib
import shutil
import subprocess
import sys
import tempfile
import unittest

ROOT = pathlib.Path(__file__).resolve().parent.parent.parent
sys.path.insert(0, str(ROOT / "tools"))
import sample  # noqa: E402  (the volumes are made by a second reader of the format)

TOOL = os.path.abspath(sys.argv[1]) if len(sys.argv) > 1 else "pagestore"
SAMPLES = ROOT / "samples"
DEMO, FIRST, TURNED = SAMPLES / "demo.vol", SAMPLES / "demo-first.vol", SAMPLES / "turned.vol"
COMMANDS = "scan show history log notes forecast repair archive restore compare convert upkeep map new".split()
COUNTS = ["--pages", 6, "--slots", 4, "--log", 16, "--notes", 8]


def run(*words, stdin=b"", **more):
    """Exit status, standard output, standard error as text."""
    done = subprocess.run([TOOL, *map(str, words)], input=stdin, capture_output=True, timeout=60, check=False, **more)
    return done.returncode, done.stdout, done.stderr.decode(errors="replace")


def lines(*words):
    return run(*words)[1].decode().splitlines()


def part_of(data, part, number):
    """Where an item starts: a page's image, a backup's, a log record, a note."""
    pages = int.from_bytes(data[4:8], "little")
    slots = int.from_bytes(data[8 + 256 * pages :][:4], "little")
    records = int.from_bytes(data[12 + 256 * (pages + slots) :][:4], "little")
    start, size = {
        "page": (8, 256),
        "slot": (12 + 256 * pages, 256),
        "log": (16 + 256 * (pages + slots), 64),
        "note": (20 + 256 * (pages + slots) + 64 * records, 16),
    }[part]
    return start + size * (number - 1)


def hurt(path, part, number, at=20):
    """The volume's bytes with one bit of an item turned."""
    data = bytearray(path.read_bytes())
    data[part_of(data, part, number) + at] ^= 1
    return bytes(data)


class Trial(unittest.TestCase):
    maxDiff = None

    def setUp(self):
        self.dir = pathlib.Path(tempfile.mkdtemp())
        self.addCleanup(shutil.rmtree, self.dir)

    def file(self, data, name="some.vol"):
        path = self.dir / name
        path.write_bytes(data)
        return path

    def refused(self, number, *words):
        """The command is refused with that number and a sentence, on standard error, and prints nothing."""
        status, out, err = run(*words)
        self.assertEqual((status, out), (2, b""), err)
        self.assertRegex(err, rf"refused {number}: [A-Z0-9].*\.\n")
        return err

    def told(self, words, *command):
        """The command is not done, and says why in these words."""
        status, out, err = run(*command)
        self.assertEqual((status, out), (2, b""), err)
        self.assertIn(words, err)


def main(*cases):
    wanted = sys.argv[2:]
    loader = unittest.TestLoader()
    tests = [test for case in cases for test in loader.loadTestsFromTestCase(case)]
    suite = unittest.TestSuite(t for t in tests if not wanted or any(word in t.id() for word in wanted))
    result = unittest.TextTestRunner(verbosity=1).run(suite)
    return 0 if result.wasSuccessful() and result.testsRun else 1
