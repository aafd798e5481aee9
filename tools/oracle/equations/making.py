"""Turns the stored answers into equations between our definitions and the Rust's answers, written in antt."""

from dataclasses import dataclass

import stored

# Collecting the distinct values takes steps by the square of their number; 300 of them take the checker a second, once
# for each equation.
MOST_KEYS = 300
# So of a described column, which is long, one level of each gain is asked; of a stored one every level.
GAIN_LEVELS = (0, 3, 6, 9)
# A chunk's values are walked once, but the checker ends a computation after fifty million steps or 1 GiB of stack.
MOST_VALUES = 5000

SORTEDNESS = ("Constant", "Ascending", "Descending", "Unsorted")
CARDINALITY = ("Exact", "AtLeast")
REASONS = ("Empty", "CompressionDisabled", "SmallestEstimate", "GainBelowThreshold")
ORIGINS = ("made by hand", "good", "cut", "one byte changed", "random", "short")
NAMINGS = ("unnamed", *(f"(named {n})" for n in range(1, 8)))
DICTIONARY = NAMINGS.index("(named 6)")


@dataclass
class Equation:
    """`left ≡ right`, in antt. `kind` is the definition that it is about; `unfolds` is what it computes through; `case` and
    `told` say for a reader what was asked, and what the Rust answered."""

    kind: str
    unfolds: str
    left: str
    right: str
    case: str
    told: str


@dataclass
class LeftOut:
    """Something that is not put to the definitions."""

    what: str


# ---- antt's terms


def items(terms):
    return "(" + " ∷ ".join([*terms, "[]"]) + ")"


def numbers(values):
    return items(str(v) for v in values)


def key(value):
    return f"pos {value}" if value >= 0 else f"negsuc {-value - 1}"


def keys(values):
    return items(key(v) for v in values)


def answer(given, count):
    return f"ok {count}" if given.number == 0 else f"refused {given.number} {given.offset}"


def fields(**terms):
    """A record."""
    return "record { " + "; ".join(f"{name} = {term}" for name, term in terms.items()) + " }"


# ---- words for a reader


def hexed(data):
    return data.hex(" ") or "no bytes"


def listed(values):
    return "[" + ", ".join(str(v) for v in values) + "]"


# ---- equations


def equation(kind, unfolds, left, right, case):
    return Equation(kind, unfolds, left, str(right), case, told=str(right))


def of_bytes(kind, unfolds, left, data, case):
    return Equation(kind, unfolds, left, numbers(data), case, told=hexed(data))


# ---- leaves.bin

ALONE = "standalone-computes"


def of_number(r):
    v, case = key(stored.signed(r.x)), f"x = {r.x}"
    yield equation("zigzag", ALONE, f"zigzag ({v})", r.zigzag, case)
    yield equation("unzigzag", ALONE, f"unzigzag {r.x}", key(r.unzigzag), case)
    yield equation("width", ALONE, f"width {r.x}", r.width, case)
    yield equation("uvarint_len", ALONE, f"uvarint_len {r.x}", len(r.uvarint), case)
    yield of_bytes("uvarint_bytes", ALONE, f"uvarint_bytes {r.x}", r.uvarint, case)
    yield equation("varint_len", ALONE, f"varint_len ({v})", len(r.varint), case)
    yield of_bytes("varint_bytes", ALONE, f"varint_bytes ({v})", r.varint, case)


def of_varint_read(r):
    def outcome(value):
        return f"refused {r.answer.number} {r.answer.offset}" if r.answer.number else f"ok ({value}, {r.next})"

    asked, case = f"{numbers(r.data)} {r.place}", f"{hexed(r.data)} read at {r.place}"
    yield equation("read_uvarint", ALONE, f"unsigned_read (read_uvarint {asked})", outcome(r.value), case)
    yield equation("read_varint", ALONE, f"signed_read (read_varint {asked})", outcome(key(r.signed)), case)


def of_packing(r):
    values, space = numbers(r.values), 8 * len(r.values)
    case = f"width {r.width}, values {listed(r.values)}"
    asked = f"pack_answer {values} {r.width} {space}"
    if r.answer.offset is None:
        yield equation("pack_answer", ALONE, f"number_of ({asked})", r.answer.number, case)
    else:
        yield equation("pack_answer", ALONE, asked, answer(r.answer, len(r.packed)), case)
        yield of_bytes("packed", ALONE, f"packed {r.width} {values}", r.packed, case)


def of_unpacking(r):
    body, case = numbers(r.body), f"width {r.width}, {r.count} values, body {hexed(r.body)}"
    asked = f"unpack_answer {body} {r.width} {r.count} {r.count}"
    yield equation("unpack_answer", ALONE, asked, answer(r.answer, r.count), case)
    if r.answer.number == 0:
        yield equation("unpacked", ALONE, f"unpacked {r.width} {r.count} {body}", numbers(r.values), case)


def of_packed_length(r):
    case = f"{r.count} values, width {r.width}"
    yield equation("packed_len_answer", ALONE, f"packed_len_answer {r.count} {r.width}", f"ok {r.length}", case)


def of_packed_many(r):
    packed, case = f"packed {r.width} {numbers(r.values)}", f"width {r.width}, values {listed(r.values)}"
    sums = f"({r.length}, {r.packed_sum})"
    yield equation("packed", ALONE, f"summed ({packed})", sums, f"{case}: length and checksum")
    unpacked, sums = f"unpacked {r.width} {len(r.values)} ({packed})", f"({len(r.values)}, {r.unpacked_sum})"
    yield equation("unpacked", ALONE, f"summed_numbers ({unpacked})", sums, f"{case}: count and checksum")


# ---- columns.bin

PLANNING = "planning-computes"
WRITING = "writing-computes"


def statistics(s):
    which, number = s.cardinality
    return fields(
        count=s.count, first=key(s.first), min=key(s.min), max=key(s.max), run_count=s.run_count,
        sortedness=SORTEDNESS[s.sortedness], cardinality=f"{CARDINALITY[which]} {number}", value_span=s.value_span,
        max_zigzag=s.max_zigzag, varint_body_bytes=s.varint_body_bytes, run_length_body_bytes=s.run_length_body_bytes,
        delta_min=key(s.delta_min), delta_max=key(s.delta_max), delta_span=s.delta_span,
    )


def estimates(c):
    # The Rust tells 0 for a length that is not available; any other would be one that the definitions have no place for.
    assert all(available or length == 0 for length, available in zip(c.lengths, c.available))
    return fields(lengths=items(f"Some {n}" if available else "None" for n, available in zip(c.lengths, c.available)))


def plan(c, p):
    return fields(
        encoding=stored.ENCODINGS[p.encoding - 1], estimated_bytes=p.estimated_bytes, plain_bytes=p.plain_bytes,
        reason=REASONS[p.reason], run_density=f"of_bits binary64 {c.stats.run_density}",
        estimated_ratio=f"of_bits binary64 {p.estimated_ratio}", estimates=estimates(c),
    )


def of_column(c):
    if len(c.keys) > MOST_KEYS:
        yield LeftOut(f"columns of more than {MOST_KEYS} keys")
        return
    column, case = keys(c.keys), f"the column {listed(c.keys)}"
    yield equation("stats_of", PLANNING, f"stats_of {column}", statistics(c.stats), case)
    yield equation("estimates_of", PLANNING, f"estimates_of {column}", estimates(c), case)
    for p in c.plans:
        for level in (n for n in p.levels if c.chunks or n in GAIN_LEVELS):
            asked = f"plan_of {level} {column}"
            yield equation("plan_of", f"{PLANNING} of_bits", asked, plan(c, p), f"{case} at level {level}")
    yield from (of_stored_chunks if c.chunks else of_described_chunks)(c, column, case)


def of_stored_chunks(c, column, case):
    yield equation("distinct_values", PLANNING, f"distinct_values {column}", keys(c.distinct), case)
    for id, (name, chunk) in enumerate(zip(stored.ENCODINGS, c.chunks), 1):
        asked, length, so = f"{id} {column} {len(c.keys)}", len(chunk), f"{case} in {name}"
        yield of_bytes("chunk_of", WRITING, f"chunk_of {name} {column}", chunk, so)
        yield equation("write_answer", WRITING, f"write_answer {asked} {length}", f"ok {length}", so)
        yield of_bytes("write_output", WRITING, f"write_output {asked} (replicate {length} 0)", chunk, so)


def of_described_chunks(c, column, case):
    asked, sums = f"summed_keys (distinct_values {column})", f"({c.distinct_count}, {c.distinct_sum})"
    yield equation("distinct_values", PLANNING, asked, sums, f"{case}: count and checksum")
    for name, (length, total) in zip(stored.ENCODINGS, c.chunk_sums):
        asked, so = f"summed (chunk_of {name} {column})", f"{case} in {name}: length and checksum"
        yield equation("chunk_of", WRITING, asked, f"({length}, {total})", so)


def of_refused_encoding(r):
    asked = f"number_of (write_answer {r.id} {keys((1, 2, 3))} 3 100)"
    yield equation("write_answer", WRITING, asked, r.number, f"[1, 2, 3] in the encoding {r.id}")


# ---- chunks.bin

READING = "reading-computes"


def of_chunk(r):
    s, case = numbers(r.data), f"{ORIGINS[r.origin]}: {hexed(r.data)}"
    if asks_many_codes(r):
        yield LeftOut(f"answers to Dictionary chunks of more than {MOST_VALUES:,} codes")
    else:
        answers = items(answer(a, r.count) for a in r.answers)
        yield equation("read_answer", f"{READING} readings", f"readings {s} {r.count or 64}", answers, case)
    accepting = [naming for naming, a in zip(NAMINGS, r.answers) if a.number == 0]
    if r.count > MOST_VALUES:
        yield LeftOut(f"values of chunks of more than {MOST_VALUES:,} values")
    elif accepting:
        yield of_values(r, accepting[-1], s, case)


def asks_many_codes(r):
    """Of a Dictionary chunk every code is asked about, by question 18; no other answer walks so many values."""
    return r.answers[DICTIONARY].number in (0, 18) and header_count(r.data) > MOST_VALUES


def header_count(data):
    """The count in a header that was read: a varint at 2."""
    groups = data[2:]
    last = next(n for n, byte in enumerate(groups) if byte < 128)
    return sum(byte % 128 << 7 * n for n, byte in enumerate(groups[: last + 1])) % stored.WORD


def of_values(r, naming, s, case):
    asked = f"read_column false {naming} {s} (replicate {r.count} (pos 0))"
    if r.keys is None:
        sums = f"({r.count}, {r.keys_sum})"
        return equation("read_column", READING, f"summed_keys ({asked})", sums, f"{case}: count and checksum")
    return equation("read_column", READING, asked, keys(r.keys), case)


MAKERS = {
    stored.Number: of_number,
    stored.VarintRead: of_varint_read,
    stored.Packing: of_packing,
    stored.Unpacking: of_unpacking,
    stored.PackedLength: of_packed_length,
    stored.PackedMany: of_packed_many,
    stored.Column: of_column,
    stored.RefusedEncoding: of_refused_encoding,
    stored.Chunk: of_chunk,
}


def make(record):
    """The equations of a record, and what is left out of it."""
    return list(MAKERS[type(record)](record))
