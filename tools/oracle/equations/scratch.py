"""A scratch repository with the definitions and the equations, and the checker's verdict on it."""

import os
import re
import shutil
import subprocess

# Small enough to open at a failing equation.
FILE_SIZE = 100
# rt checks crates side by side; with several to a core, no core waits long for the last one.
CRATES = 8

SOURCE = "// No code: proofs/ has the equations.\n#![tactic(auto)]\n"

# What the equations ask, where it is not a definition as it stands.
ASKED = """\
use mathlib.Core.Bool.{false}
use mathlib.Core.List.{List, [], ◌∷◌, ◌++◌, map}
use Prim.Native.Nat.{ℕ, ◌*◌, ◌%◌, ◌^◌}
use lib.Bits.{bit_xor}
use lib.IntN.{ℤ}
use lib.ListN.{length}
use Rattle.format.specs.Digits.{digits}
use Rattle.format.specs.Outcome.{Outcome, refused, ok}
use Rattle.format.specs.Keys.{residue}
use Rattle.format.specs.Header.{unnamed, named}
use Rattle.format.specs.Read.{read_answer}
use Rattle.format.specs.Varint.{Uvarint}
use Rattle.format.specs.Standalone.{Varint}

-- the eight readings of a chunk
unfoldable pub readings : List ℕ → ℕ → List (Outcome ℕ)
readings s room =
    map (λ naming. read_answer false naming s room) (unnamed ∷ named 1 ∷ named 2 ∷ named 3 ∷ named 4 ∷ named 5 ∷ named 6 ∷ named 7 ∷ [])

-- a varint's answer without `unpadded`, which the Rust does not tell
abbrev pub unsigned_read : Outcome Uvarint → Outcome (ℕ × ℕ)
unsigned_read (ok read) = ok (read.value, read.next)
unsigned_read (refused number offset) = refused number offset

abbrev pub signed_read : Outcome Varint → Outcome (ℤ × ℕ)
signed_read (ok read) = ok (read.value, read.next)
signed_read (refused number offset) = refused number offset

-- the stored checksum: FNV-1a with 64 bits
abbrev pub fnv : ℕ → List ℕ → ℕ
fnv sum [] = sum
fnv sum (b ∷ bs) = fnv (bit_xor b sum * 1099511628211 % 2 ^ 64) bs

abbrev pub words : List ℕ → List ℕ
words [] = []
words (n ∷ ns) = digits 256 8 n ++ words ns

-- length and checksum: of bytes, of numbers, of keys
abbrev pub summed : List ℕ → ℕ × ℕ
summed bytes = (length bytes, fnv 14695981039346656037 bytes)

abbrev pub summed_numbers : List ℕ → ℕ × ℕ
summed_numbers ns = (length ns, fnv 14695981039346656037 (words ns))

abbrev pub summed_keys : List ℤ → ℕ × ℕ
summed_keys column = summed_numbers (map residue column)
"""

HEADER = """\
use mathlib.Core.Path.{◌≡◌, refl}
use mathlib.Core.Bool.{true, false}
use mathlib.Core.List.{[], ◌∷◌}
use lib.IntN.{pos, negsuc}
use lib.ListN.{replicate}
use lib.Ieee.{of_bits, binary64}
use Rattle.std.specs.Prelude.{Some, None}
use Rattle.format.specs.Outcome.{refused, ok}
use Rattle.format.specs.Keys.{zigzag, unzigzag}
use Rattle.format.specs.Width.{width}
use Rattle.format.specs.Varint.{uvarint_len, uvarint_bytes, varint_len, varint_bytes, read_uvarint}
use Rattle.format.specs.Packing.{packed, unpacked}
use Rattle.format.specs.Answers.{number_of}
use Rattle.format.specs.Header.{unnamed, named}
use Rattle.format.specs.Chunk.{chunk_of}
use Rattle.format.specs.Read.{read_column}
use Rattle.format.specs.Write.{write_answer, write_output}
use Rattle.format.specs.Standalone.{packed_len_answer, pack_answer, unpack_answer, read_varint}
use Rattle.format.specs.Statistics.{stats_of, distinct_values}
use Rattle.format.specs.Estimates.{estimates_of}
use Rattle.format.specs.Plan.{plan_of}
use Rattle.format.specs.declared.encoding.Encoding.TheVariants.{Plain, Varint, BitPacked, FrameOfReference, RunLength, Dictionary, DeltaBinaryPacked}
use Rattle.format.specs.declared.Sortedness.TheVariants.{Constant, Ascending, Descending, Unsorted}
use Rattle.format.specs.declared.Cardinality.TheVariants.{Exact, AtLeast}
use Rattle.format.specs.declared.PlanReason.TheVariants.{Empty, CompressionDisabled, SmallestEstimate, GainBelowThreshold}
use Rattle.format.proofs.Samples.Computing.{reading-computes, writing-computes, planning-computes, standalone-computes}
use Rattle.asked.specs.Asked.{readings, unsigned_read, signed_read, summed, summed_numbers, summed_keys}

"""

# How a message of the checker begins, with the equation that it is about; and how rt names a crate that failed.
MESSAGE = re.compile(r"^\S+\.antt:\d+:\d+: error: (?:`eq-(\d+)`)?")
FAILED = re.compile(r"^equations_(\d+): failed", re.MULTILINE)


def build(root, scratch, equations):
    """Writes the scratch repository anew, so that nothing of an earlier run is trusted."""
    shutil.rmtree(scratch, ignore_errors=True)
    shutil.copytree(root / "crates" / "format", scratch / "crates" / "format", ignore=shutil.ignore_patterns("out"))
    write_crate(scratch, "asked", "specs", {"Asked": ASKED})
    lines = ["format:", "asked: format"]
    numbered = list(enumerate(equations))
    for n in range(CRATES):
        # Dealt out in turn, since neighbours cost alike.
        write_crate(scratch, f"equations_{n + 1}", "proofs", parts(numbered[n::CRATES]))
        lines.append(f"equations_{n + 1}: format asked")
    (scratch / "crates.txt").write_text("\n".join(lines) + "\n")


def write_crate(scratch, name, folder, modules):
    crate = scratch / "crates" / name
    (crate / "src").mkdir(parents=True)
    (crate / "src" / "lib.rt").write_text(SOURCE)
    (crate / folder).mkdir()
    (crate / folder / "Lib.antt").write_text("".join(f"pub mod {module}\n" for module in modules))
    for module, text in modules.items():
        (crate / folder / f"{module}.antt").write_text(text)


def parts(numbered):
    """The files of a crate."""
    starts = range(0, len(numbered), FILE_SIZE)
    return {f"Part{n}": part(numbered[at : at + FILE_SIZE]) for n, at in enumerate(starts, 1)}


def part(numbered):
    """A file of equations. One declaration each: so the checker names every one that fails, and it takes no longer than for
    one record of them all."""
    return HEADER + "\n".join(
        f"eq-{n} : {e.left} ≡ {e.right}\nunfolding {e.unfolds}\neq-{n} = refl\n" for n, e in numbered
    )


def check(scratch):
    """Runs the checker. Gives whether it proved everything; its message on each equation, by number; and, where it failed
    in another way too, all that it printed."""
    run = subprocess.run(
        ["nice", "rt", "all", "check", "--jobs", str(os.cpu_count())], cwd=scratch,
        stdout=subprocess.PIPE, stderr=subprocess.STDOUT, text=True, errors="replace",
    )
    messages, current = {}, None
    for line in run.stdout.splitlines():
        if begins := MESSAGE.match(line):
            current = begins.group(1)
        elif not line.startswith(" "):
            continue
        messages.setdefault(current, []).append(line.strip())
    by_number = {int(n): lines for n, lines in messages.items() if n is not None}
    failed = {int(n) for n in FAILED.findall(run.stdout)}
    explained = None not in messages and failed == {n % CRATES + 1 for n in by_number}
    proved = run.returncode == 0
    return proved, by_number, "" if proved or (by_number and explained) else run.stdout
