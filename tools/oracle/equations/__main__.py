"""tools/oracle/definitions: runs our definitions on the stored answers of the original Rust. See docs/ORACLE.md."""

import argparse
import os
import shutil
import sys
import time
from collections import Counter
from pathlib import Path

import making
import scratch
import stored

FILES = ("leaves", "columns", "chunks")
SHOWN = 5
CUT = 400
BIT_PACKED = stored.ENCODINGS.index("BitPacked")


def fail(sentence):
    print(f"tools/oracle/definitions: {sentence}", file=sys.stderr)
    sys.exit(1)


def arguments():
    parser = argparse.ArgumentParser(prog="tools/oracle/definitions", description=__doc__)
    parser.add_argument("--quick", action="store_true", help="take every tenth case of each kind")
    parser.add_argument("--plant", action="store_true", help="change one expected byte, in memory, to see it found")
    return parser.parse_args()


def read_records(folder, quick):
    """The records of the three files. A quick run takes every tenth of each kind of record."""
    met, taken = Counter(), []
    for name in FILES:
        try:
            records = stored.read_file(folder, name)
        except OSError:
            fail(f"the stored file {folder / name}.bin is missing or cannot be read.")
        except ValueError as why:
            fail(f"the stored file {folder / name}.bin is not as docs/ORACLE.md says: {why}.")
        for record in records:
            if not quick or met[type(record)] % 10 == 0:
                taken.append(record)
            met[type(record)] += 1
    return taken


def plant(records):
    """Changes the last byte of a BitPacked chunk that the Rust wrote."""
    columns = [r for r in records if isinstance(r, stored.Column) and r.chunks]
    chunks = columns[len(columns) // 2].chunks
    right = chunks[BIT_PACKED]
    chunks[BIT_PACKED] = right[:-1] + bytes([right[-1] ^ 1])
    print(f"Planted: the chunk {shortened(making.hexed(right))} now ends in {chunks[BIT_PACKED][-1]:02x}.\n")


def shortened(text):
    return text if len(text) <= CUT else text[:CUT] + " .."


def report_counts(equations, failing):
    print(f"{'kind':<18}{'equations':>10}{'hold':>8}")
    all_of, failed = Counter(e.kind for e in equations), Counter(equations[n].kind for n in failing)
    for kind, count in all_of.items():
        print(f"{kind:<18}{count:>10,}{count - failed[kind]:>8,}")
    print(f"{'all':<18}{len(equations):>10,}{len(equations) - len(failing):>8,}")


def report_left_out(left_out):
    print("\nLeft out, since they take too long to compute:" if left_out else "\nNothing is left out.")
    for what, count in Counter(x.what for x in left_out).items():
        print(f"  {count:,} {what}")


def found(message):
    """Where the computed sides differ; or, where the checker does not say that, its first line."""
    computed = [line for line in message if line.startswith("computed as far as they go")]
    return (computed or message)[0]


def report_failing(equations, messages):
    for number in sorted(messages)[:SHOWN]:
        e = equations[number]
        print(f"\nNot proved: {e.kind}, {shortened(e.case)}")
        print(f"  the Rust:    {shortened(e.told)}")
        print(f"  the checker: {shortened(found(messages[number]))}")
    if len(messages) > SHOWN:
        print(f"\n.. and {len(messages) - SHOWN} more.")


def main():
    options = arguments()
    root = Path(__file__).resolve().parents[3]
    place = Path(os.environ.get("WARPBOULDER_DEFINITIONS_BUILD") or f"/tmp/warpboulder-definitions-{os.getuid()}").resolve()
    if root in [place, *place.parents]:
        fail(f"the folder {place} lies inside the tree; set WARPBOULDER_DEFINITIONS_BUILD to another.")
    # A folder of its own in there, since what it holds is removed first.
    place = place / "warpboulder-definitions"
    if place in [root, *root.parents]:
        fail(f"the tree lies in {place}, which is made anew; set WARPBOULDER_DEFINITIONS_BUILD to another.")
    try:
        place.mkdir(parents=True, exist_ok=True)
    except OSError as error:
        fail(f"the folder {place} cannot be made ({error.strerror}); set WARPBOULDER_DEFINITIONS_BUILD to another.")
    if not shutil.which("rt"):
        fail("rt, Rattle's checker, is not installed or not in the path.")
    records = read_records(root / "crates" / "replay" / "data", options.quick)
    if options.plant:
        plant(records)
    made = [x for r in records for x in making.make(r)]
    equations = [x for x in made if isinstance(x, making.Equation)]

    start = time.monotonic()
    scratch.build(root, place, equations)
    proved, messages, unexplained = scratch.check(place)
    seconds = time.monotonic() - start
    if unexplained:
        print(unexplained)
        fail("the checker stopped for another reason than an equation; what it printed stands above.")

    report_counts(equations, messages)
    report_left_out([x for x in made if isinstance(x, making.LeftOut)])
    report_failing(equations, messages)
    print(f"\n{'All hold' if proved else f'{len(messages)} not proved'}; {seconds:.0f} seconds.")
    sys.exit(0 if proved else 1)


main()
