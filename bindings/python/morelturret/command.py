"""The command `python3 -m morelturret FILE..`."""
import argparse
import pathlib
import sys

from ._declared import VERSION
from .crossings import crossings
from .files import BadFile, read
from .grid import DEFAULT_WALK, SIZINGS, WALKS
from .lines import Lines
from .once import Once
from .page import page
from .parts import Parts
from .picture import LABELS, picture
from .progress import Bar
from .refusal import Refusal

ABOUT = """\
The grid of the chains in FILE.., the tests of a full visit and the pairs of legs that may cross; with --crossings, those that do.

FILE is a table of two columns, x and y, with a header or without, and perhaps a third that splits the chains, such as the orbit; or a LineString or
MultiLineString in well-known binary, as bytes or in hex. - is standard input. Several files are taken as one input, each with chains of its own.
Any number of legs: above 65,536 they are cut in parts, and every two parts are built together, so that no pair is lost between them."""
EXACT = "The pairs come from the proved library. Whether two legs cross is decided exactly, but by plain Python, which is not proved."


def arguments():
    parser = argparse.ArgumentParser("python3 -m morelturret", description=ABOUT, epilog=EXACT, formatter_class=argparse.RawDescriptionHelpFormatter)
    parser.add_argument("files", nargs="+", metavar="FILE")
    parser.add_argument("--sizing", choices=SIZINGS, default="square", help="square cells (the default), or each axis by itself")
    parser.add_argument("--walk", choices=WALKS, default=DEFAULT_WALK, help=f"how a leg finds its cells (the default is {DEFAULT_WALK}; ./morelturret has rust)")
    parser.add_argument("--crossings", action="store_true", help="print the pairs that share a point, as CSV; all else then goes to standard error")
    parser.add_argument("--joints", action="store_true", help="with --crossings: also each leg and the next, which share their joint")
    parser.add_argument("--svg", metavar="OUT", help="write a picture: the cells, the chain coloured by time, the crossings")
    parser.add_argument("--html", metavar="OUT", help="write a page to look at: one file with all in it, to drag, zoom and click")
    parser.add_argument("--labels", metavar="X,Y", help="what the axes are called (else as in a header, or kelvin and parts per billion)")
    parser.add_argument("--version", action="version", version=f"morelturret {VERSION}")
    return parser


def main(words=None):
    """Status 0; 1 where the library refuses; 2 where a file can't be read or the output can't be written."""
    asked = arguments().parse_args(words)
    bar = Bar()
    try:
        return run(asked, bar)
    except BadFile as problem:
        bar.clear()
        return stop(problem, 2)
    except Refusal as refusal:
        bar.clear()
        return stop(f"{refusal}\nWhat to do: {refusal.advice}.", 1)
    except BrokenPipeError:
        sys.stdout = None  # whoever read the output has gone: nothing is flushed at the end
        return 0
    except OSError as problem:
        bar.clear()
        return stop(f"the output can't be written: {problem.strerror}", 2)


def stop(said, status):
    print(f"morelturret: {said}", file=sys.stderr)
    return status


def labels(asked, chains):
    """What the axes are called."""
    named = asked.labels.split(",") if asked.labels else chains[0].names
    if named and len(named) != 2:
        raise BadFile(f"--labels takes two names with a comma between them, not {asked.labels!r}")
    return named or LABELS


def title(asked):
    """The names of the files, without their folders."""
    return ", ".join(pathlib.PurePath(path).name for path in asked.files)


def written(shown, path):
    """A picture or a page goes to its file."""
    try:
        shown.save(path)
    except OSError as problem:
        raise BadFile(f"{path} can't be written: {problem.strerror}") from problem


def described(tables, pairs, report):
    """A build and its visit, in lines of text."""
    grid = tables.grid
    print(f"lines {len(tables.lines)}", file=report)
    print(f"grid {grid.cols} columns, {grid.rows} rows, cells {grid.cell_width:.9g} by {grid.cell_height:.9g}", file=report)
    print(f"items {len(tables.items)}\nglobals {len(tables.globals)}\ntests {tables.tests}", file=report)
    print(f"overlaps {pairs.handed}\npairs {len(pairs)}", file=report)


def run(asked, bar):
    chains = [read(path) for path in asked.files]
    lines = Lines.together([one.lines for one in chains]) if len(chains) > 1 else chains[0].lines
    report = sys.stderr if asked.crossings else sys.stdout
    parts, built = Parts(lines, asked.sizing, asked.walk), []
    if len(parts) > 1:
        print(f"lines {len(lines)} in {parts.count} parts, every two of them in one build: {len(parts)} builds", file=report)

    def told(tables, pairs):
        bar.clear()
        described(tables, pairs, report)
        if len(parts) == 1:  # several builds have no grid in common that could be shown
            built.append(tables)

    if not (asked.crossings or asked.svg or asked.html):
        for number, part in enumerate(parts):
            told(part.tables, Once(part.tables, lambda share, what: bar((number + share) / len(parts), what)))
        sys.stdout.flush()
        return 0
    found = crossings(lines, asked.sizing, asked.walk, asked.joints, bar, told)
    bar.clear()
    print(f"crossings {len(found)}, and {found.joints} joints that are left out", file=report)
    for make, path in ((picture, asked.svg), (page, asked.html)):
        if path:
            written(make(lines, built[0] if built else None, found, labels(asked, chains), title(asked)), path)
    if asked.crossings:
        sys.stdout.writelines(found.rows())
    sys.stdout.flush()
    return 0
