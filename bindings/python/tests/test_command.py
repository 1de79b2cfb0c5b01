"""The command, as a user runs it; and what an import says where something is missing."""
import io
import os
import pathlib
import subprocess
import sys
import tempfile
import unittest

from morelturret.progress import Bar

from .shared import EXAMPLES, TOP

PACKAGE = TOP / "bindings" / "python"


def run(*words, before="", stdin=None, **environment):
    """Standard output, standard error and the status of the command."""
    code = before + "import sys; from morelturret.command import main; sys.exit(main())"
    env = {**os.environ, "PYTHONPATH": str(PACKAGE), **environment}
    done = subprocess.run([sys.executable, "-c", code, *map(str, words)], input=stdin, capture_output=True, env=env, cwd=TOP)
    return done.stdout.decode(), done.stderr.decode(), done.returncode


class Progress(unittest.TestCase):
    class Terminal(io.StringIO):
        def isatty(self):
            return True

    def test_a_bar(self):
        for stream, shown in ((self.Terminal(), True), (io.StringIO(), False)):
            bar = Bar(stream)
            bar(0.25, "pairs")
            self.assertEqual(stream.getvalue(), "")  # no second has passed
            bar.next = 0
            bar(0.5, "pairs")
            bar.clear()
            self.assertEqual(stream.getvalue(), "\rpairs [" + 20 * "#" + 20 * "." + "]  50 %\033[K\r\033[K" if shown else "")


class Command(unittest.TestCase):
    def setUp(self):
        self.folder = tempfile.TemporaryDirectory()
        self.addCleanup(self.folder.cleanup)

    def file(self, name, text):
        path = pathlib.Path(self.folder.name) / name
        path.write_bytes(text if isinstance(text, bytes) else text.encode())
        return path

    def test_a_chain(self):
        said, wrong, status = run("--walk", "rust", EXAMPLES / "orbits.wkb")
        self.assertEqual((wrong, status), ("", 0))
        grid = "grid 25 columns, 9 rows, cells 0.949082824 by 0.949082824"
        self.assertEqual(said.splitlines(), ["lines 223", grid, "items 658", "globals 0", "tests 2526", "overlaps 1330", "pairs 874"])

    def test_crossings(self):
        said, wrong, status = run("--walk", "rust", "--crossings", EXAMPLES / "orbits.wkb")
        self.assertEqual((len(said.splitlines()), status), (41, 0))
        self.assertTrue(said.startswith("first,second,kind,x,y\n0,130,cross,"))
        self.assertTrue(wrong.endswith("pairs 874\ncrossings 40, and 222 joints that are left out\n"))
        self.assertEqual(len(run("--crossings", "--joints", EXAMPLES / "orbits.wkb")[0].splitlines()), 1 + 40 + 222)

    def test_hex_tables_and_several_files(self):
        square = EXAMPLES / "square.wkb"
        one = run("--crossings", square)[0]
        self.assertEqual(run("--crossings", self.file("square.hex", square.read_bytes().hex()))[0], one)
        self.assertEqual(run("--crossings", "-", stdin=b"x,y\n0,0\n2,0\n2,2\n0,2\n0,0\n")[0], one)
        two = run("--crossings", square, self.file("diagonal.csv", "1,-1\n1,3\n"))[0]
        self.assertEqual(two, one + "0,4,cross,1.0,0.0\n2,4,cross,1.0,2.0\n")

    def test_wrong_files(self):
        for name, text, said in (
            ("t.wkt", "LINESTRING (0 0, 1 1)", "this is well-known text"),
            ("t.csv", "1,2\n3,x\n", "row 2: y is no number: 'x'"),
            ("t.wkb", b"\1\2\0\0\0\2\0\0\0abc", "cut: 2 points were announced, and 0 are there; at byte 12"),
        ):
            path = self.file(name, text)
            out, wrong, status = run(path)
            self.assertEqual((out, status), ("", 2))
            self.assertTrue(wrong.startswith(f"morelturret: {path}: {said}"), wrong)
        out, wrong, status = run("none.csv")
        self.assertEqual((out, wrong, status), ("", "morelturret: none.csv can't be read: No such file or directory\n", 2))

    def test_refusals(self):
        out, wrong, status = run(self.file("gap.csv", "1,2\n3,nan\n4,5\n"))
        self.assertEqual((out, status), ("", 1))
        self.assertTrue(wrong.startswith("morelturret: refused 1, value 0: a coordinate is not finite"), wrong)
        self.assertIn("\nWhat to do: mend or leave out that line", wrong)

    def test_help(self):
        said, _, status = run("--help")
        self.assertEqual(status, 0)
        for word in ("FILE", "--sizing", "--walk", "--crossings", "not proved", "default"):
            self.assertIn(word, said)
        self.assertEqual(run("--walk", "round", EXAMPLES / "square.wkb")[2], 2)
        self.assertRegex(run("--version")[0], r"^morelturret \d+\.\d+\.\d+")

    @unittest.skipUnless(os.path.exists("/dev/full"), "there is no /dev/full")
    def test_a_full_disk(self):
        with open("/dev/full", "w") as full:
            code = "import sys; from morelturret.command import main; sys.exit(main())"
            done = subprocess.run([sys.executable, "-c", code, EXAMPLES / "square.wkb"], stdout=full, stderr=subprocess.PIPE, env={**os.environ, "PYTHONPATH": str(PACKAGE)})
        self.assertEqual((done.returncode, done.stderr.decode().splitlines()[:1]), (2, ["morelturret: the output can't be written: No space left on device"]))

    def test_what_is_missing(self):
        _, wrong, status = run(EXAMPLES / "square.wkb", before="import sys; sys.modules['numpy'] = None; ")
        self.assertNotEqual(status, 0)
        self.assertIn("ImportError: morelturret needs NumPy: apt install python3-numpy", wrong)
        _, wrong, status = run(EXAMPLES / "square.wkb", MORELTURRET_LIB=self.folder.name)
        self.assertNotEqual(status, 0)
        self.assertIn("build it by tools/build_library", wrong)
