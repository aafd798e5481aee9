//! The texts of `help` and `--help`. No line is longer than the 80 characters of a narrow terminal.

/// What every command that reads keys says of FILE.
macro_rules! keys_help {
    () => {
        "\
FILE holds signed 64-bit keys, 16,777,216 at most; '-' is standard input.
  text    one key a line; blank lines and lines that begin with # are skipped
  CSV     one column; blank lines are skipped, fields may stand in \"quotes\",
          and all rows have as many fields; the first row is skipped if it
          names the columns (see --header)
  binary  8 bytes a key, little-endian
The ending says which: .csv is CSV, .bin and .i64 are binary, others are text.

  --from text|csv|binary  how the keys are written, whatever the ending says
  --column NAME|NUMBER    the column of a CSV file: its name, or its number
                          from 1
  --header yes|no         whether the first row of a CSV file names the
                          columns; unless told, it does where --column gives
                          a name, or where the column's field begins with a
                          letter or _; a table of text and keys without a
                          header needs --header no
"
    };
}

/// The names that `--encoding` takes.
macro_rules! encodings_help {
    () => {
        "                          Plain, Varint, BitPacked, FrameOfReference,
                          RunLength, Dictionary or DeltaBinaryPacked
"
    };
}

/// What a command that reads a chunk says of its options.
macro_rules! reading_help {
    () => {
        concat!(
            "  --strict                refuse bytes after the body, and varints that are
                          longer than they need to be
  --encoding NAME         refuse a chunk of another encoding; NAME is
",
            encodings_help!()
        )
    };
}

pub fn overview() -> String {
    format!(
        "\
warpboulder {}: a proved codec for columns of signed 64-bit keys

  warpboulder COMMAND FILE [OPTIONS]

  plan FILE       how long the column is in each of seven encodings, and
                  which of them is chosen
  pack FILE       write the column as a chunk
  unpack CHUNK    write the keys of a chunk as text or binary
  inspect CHUNK   show what the bytes of a chunk are
  verify CHUNK    say whether a chunk is accepted, or why not
  stats FILE      show the statistics of the column
  help COMMAND    tell the options of a command, with examples

FILE is a text of one key a line, a CSV file, or binary; '-' is standard input.
Exit status: 0 done, 1 refused or failed, 2 wrong usage.
",
        env!("CARGO_PKG_VERSION")
    )
}

pub const PLAN: &str = concat!(
    "\
warpboulder plan FILE [--level 0-9] [--from FORMAT] [--column COLUMN]
                 [--header yes|no]

Shows how long the column's chunk is in each of the seven encodings, which one
is chosen, and why.

  --level 0-9             what an encoding has to save of Plain to be chosen:
                          20% at levels 1 to 3, 5% at 4 to 6, 1% at 7 to 9;
                          level 0 keeps Plain; 6 unless told
  -h, --help              this text

",
    keys_help!(),
    "
  warpboulder plan keys.txt
  warpboulder plan parcels.csv --column depot --level 9
  seq 1 2 2000 | warpboulder plan -
"
);

pub const PACK: &str = concat!(
    "\
warpboulder pack FILE [-o OUT] [--level 0-9 | --encoding NAME] [--force]
                 [--from FORMAT] [--column COLUMN] [--header yes|no]

Writes the column as one chunk, in the encoding that 'plan' chooses or in the
one named. The chunk is read back and compared with the keys before it is put
in place.

  -o, --output OUT        a file, which is replaced if it exists, or - for
                          standard output; FILE.wb unless told, and standard
                          output where FILE is '-'
  --level 0-9             the level to plan at, as for 'plan'; 6 unless told
  --encoding NAME         do not plan, but pack as NAME, which is
",
    encodings_help!(),
    "  --force                 replace FILE.wb if it exists, or FILE itself if OUT is
                          the same file
  -h, --help              this text

",
    keys_help!(),
    "
  warpboulder pack keys.txt
  warpboulder pack parcels.csv --column depot -o depot.wb
  warpboulder pack keys.bin --encoding Dictionary -o - | wc -c
"
);

pub const UNPACK: &str = concat!(
    "\
warpboulder unpack CHUNK [-o OUT] [--to text|binary] [--strict]
                   [--encoding NAME] [--force]

Writes the keys of a chunk, or nothing where the chunk is refused. '-' is
standard input.

  -o, --output OUT        a file, which is replaced if it exists, or - for
                          standard output, as it is unless told
  --to text|binary        one key a line, or 8 bytes a key, little-endian;
                          binary where OUT ends in .bin or .i64, else text
",
    reading_help!(),
    "  --force                 replace CHUNK itself if OUT is the same file
  -h, --help              this text

  warpboulder unpack keys.wb | head
  warpboulder unpack keys.wb -o keys.bin
"
);

pub const INSPECT: &str = "\
warpboulder inspect CHUNK

Shows what the bytes of a chunk are: their offset, length, meaning and value.
Long rows are abridged in the middle. Of a chunk that is refused it shows as
much as can be told, and then the refusal. '-' is standard input.

  -h, --help              this text

  warpboulder inspect keys.wb
";

pub const VERIFY: &str = concat!(
    "\
warpboulder verify CHUNK [--strict] [--encoding NAME]

Says that a chunk is accepted, with its count, encoding and length, or tells
the number, the offset and the meaning of the refusal. The exit status is 0 or
1. '-' is standard input.

",
    reading_help!(),
    "  -h, --help              this text

  warpboulder verify keys.wb --strict
"
);

pub const STATS: &str = concat!(
    "\
warpboulder stats FILE [--from FORMAT] [--column COLUMN] [--header yes|no]

Shows the statistics of the column: its ends and order, its distinct keys, runs
and deltas, and how long it is as varints and as runs.

  -h, --help              this text

",
    keys_help!(),
    "
  warpboulder stats parcels.csv --column 2
"
);
