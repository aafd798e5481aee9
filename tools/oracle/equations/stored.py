"""Reads the stored answers of the original Rust. The layout is docs/ORACLE.md, "The files"."""

from __future__ import annotations

import struct
from dataclasses import dataclass
from pathlib import Path

ENCODINGS = ("Plain", "Varint", "BitPacked", "FrameOfReference", "RunLength", "Dictionary", "DeltaBinaryPacked")
WORD = 2**64
END = b"#end\n"


class Fields:
    """Fields of a file or of one record, taken from the front."""

    def __init__(self, data):
        self.data = data
        self.at = 0

    def take(self, count):
        end = self.at + count
        if end > len(self.data):
            raise ValueError("it ends before its fields do")
        part = self.data[self.at : end]
        self.at = end
        return part

    def _number(self, form):
        return struct.unpack("<" + form, self.take(struct.calcsize("<" + form)))[0]

    def u8(self):
        return self._number("B")

    def u16(self):
        return self._number("H")

    def u32(self):
        return self._number("I")

    def u64(self):
        return self._number("Q")

    def i64(self):
        return self._number("q")

    def u64s(self, count):
        return list(struct.unpack(f"<{count}Q", self.take(8 * count)))

    def i64s(self, count):
        return list(struct.unpack(f"<{count}q", self.take(8 * count)))

    def ended(self):
        return self.at == len(self.data)


@dataclass
class Answer:
    """Accepted where the number is 0. An offset that is not compared is None."""

    number: int
    offset: int | None


@dataclass
class Number:
    x: int
    zigzag: int
    unzigzag: int
    width: int
    uvarint: bytes
    varint: bytes


@dataclass
class VarintRead:
    data: bytes
    place: int
    answer: Answer
    value: int
    signed: int
    next: int


@dataclass
class Packing:
    width: int
    values: list
    answer: Answer
    packed: bytes


@dataclass
class Unpacking:
    width: int
    count: int
    body: bytes
    answer: Answer
    values: list


@dataclass
class PackedLength:
    count: int
    width: int
    length: int


@dataclass
class PackedMany:
    width: int
    values: list
    length: int
    packed_sum: int
    unpacked_sum: int


@dataclass
class Statistics:
    count: int
    first: int
    min: int
    max: int
    run_count: int
    sortedness: int
    cardinality: tuple
    value_span: int
    max_zigzag: int
    varint_body_bytes: int
    run_length_body_bytes: int
    delta_min: int
    delta_max: int
    delta_span: int
    run_density: int


@dataclass
class Plan:
    levels: list
    encoding: int
    reason: int
    estimated_bytes: int
    plain_bytes: int
    estimated_ratio: int


@dataclass
class Column:
    """A column with its chunks and distinct values: themselves if it is stored, their checksums if it is described."""

    keys: list
    stats: Statistics
    available: list
    lengths: list
    plans: list
    chunks: list | None
    chunk_sums: list | None
    distinct: list | None
    distinct_count: int
    distinct_sum: int | None


@dataclass
class RefusedEncoding:
    id: int
    number: int


@dataclass
class Chunk:
    """`answers` has the eight readings in order: unnamed, then named 1 to 7. `keys` is None where only a checksum is stored."""

    origin: int
    data: bytes
    answers: list
    count: int
    keys: list | None
    keys_sum: int | None


def states(seed, count):
    state = seed
    for _ in range(count):
        state = (state * 6364136223846793005 + 1442695040888963407) % WORD
        yield state


def signed(n):
    return n - WORD if n >= WORD // 2 else n


def read_answer(f):
    number, compared, offset = f.u8(), f.u8(), f.u64()
    return Answer(number, offset if compared else None)


def read_number(f):
    x, zigzag, unzigzag, width = f.u64(), f.u64(), f.i64(), f.u8()
    uvarint_len, uvarint = f.u8(), f.take(10)
    varint_len, varint = f.u8(), f.take(10)
    return Number(x, zigzag, unzigzag, width, uvarint[:uvarint_len], varint[:varint_len])


def read_varint_read(f):
    place = f.u64()
    answer = read_answer(f)
    value, signed_value, after = f.u64(), f.i64(), f.u64()
    return VarintRead(f.take(f.u16()), place, answer, value, signed_value, after)


def read_packing(f):
    width = f.u32()
    answer = read_answer(f)
    values = f.u64s(f.u32())
    return Packing(width, values, answer, f.take(f.u32()))


def read_unpacking(f):
    width, count = f.u32(), f.u32()
    answer = read_answer(f)
    body = f.take(f.u32())
    return Unpacking(width, count, body, answer, f.u64s(f.u32()))


def read_packed_length(f):
    return PackedLength(f.u32(), f.u32(), f.u32())


def read_packed_many(f):
    width, count, seed = f.u32(), f.u32(), f.u64()
    values = [state ^ (state >> 33) for state in states(seed, count)]
    return PackedMany(width, values, f.u32(), f.u64(), f.u64())


def read_statistics(f):
    return Statistics(
        count=f.u32(), first=f.i64(), min=f.i64(), max=f.i64(), run_count=f.u32(), sortedness=f.u8(),
        cardinality=(f.u8(), f.u32()), value_span=f.u64(), max_zigzag=f.u64(), varint_body_bytes=f.u32(),
        run_length_body_bytes=f.u32(), delta_min=f.i64(), delta_max=f.i64(), delta_span=f.u64(), run_density=f.u64(),
    )


def read_plan(f):
    levels = f.u16()
    encoding, reason, estimated, plain, ratio = f.u8(), f.u8(), f.u32(), f.u32(), f.u64()
    return Plan([n for n in range(10) if levels >> n & 1], encoding, reason, estimated, plain, ratio)


def read_column_front(f):
    stats = read_statistics(f)
    estimates = [(f.u8(), f.u32()) for _ in ENCODINGS]
    plans = [read_plan(f) for _ in range(f.u8())]
    return {
        "stats": stats,
        "available": [bool(a) for a, _ in estimates],
        "lengths": [n for _, n in estimates],
        "plans": plans,
    }


def read_stored_column(f):
    front = read_column_front(f)
    chunks = [f.take(f.u32()) for _ in ENCODINGS]
    count = front["stats"].count
    plain = chunks[0]
    keys = Fields(plain[len(plain) - 8 * count :]).i64s(count)
    distinct = f.i64s(f.u32())
    return Column(
        keys, **front, chunks=chunks, chunk_sums=None, distinct=distinct, distinct_count=len(distinct), distinct_sum=None
    )


def described_keys(f, count):
    start, step, every, factor, wrap, seed, shift, modulus, rare, other = f.u64s(10)
    keys = []
    for i, state in enumerate(states(seed, count)):
        usual = start + step * ((i // every * factor) % WORD % wrap) + (state >> shift) % modulus
        keys.append(signed((other if i % rare == rare - 1 else usual) % WORD))
    return keys


def read_described_column(f):
    front = read_column_front(f)
    keys = described_keys(f, front["stats"].count)
    sums = [(f.u32(), f.u64()) for _ in ENCODINGS]
    return Column(
        keys, **front, chunks=None, chunk_sums=sums, distinct=None, distinct_count=f.u32(), distinct_sum=f.u64()
    )


def read_refused_encoding(f):
    return RefusedEncoding(f.u8(), f.u8())


def read_chunk_front(f):
    origin, data = f.u8(), f.take(f.u16())
    answers = [None] * 8
    for _ in range(f.u8()):
        readings, number, offset = f.u8(), f.u8(), f.u32()
        for n in range(8):
            if readings >> n & 1:
                answers[n] = Answer(number, offset)
    return origin, data, answers, f.u32()


def read_stored_chunk(f):
    front = read_chunk_front(f)
    return Chunk(*front, keys=f.i64s(front[3]), keys_sum=None)


def read_described_chunk(f):
    return Chunk(*read_chunk_front(f), keys=None, keys_sum=f.u64())


KINDS = {
    "leaves": {
        1: read_number, 2: read_varint_read, 3: read_packing, 4: read_unpacking, 5: read_packed_length,
        6: read_packed_many,
    },
    "columns": {1: read_stored_column, 2: read_described_column, 3: read_refused_encoding},
    "chunks": {1: read_stored_chunk, 2: read_described_chunk},
}


def read_file(folder, name):
    """The records of a file, in order."""
    data = Path(folder, f"{name}.bin").read_bytes()
    file = Fields(data[data.index(END) + len(END) :])
    records = []
    while not file.ended():
        kind, record = file.u8(), Fields(file.take(file.u32()))
        if kind in KINDS[name]:
            records.append(KINDS[name][kind](record))
            if not record.ended():
                raise ValueError("a record is longer than its fields")
    return records
