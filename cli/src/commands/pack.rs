//! `pack`: writes a column as one chunk.

use std::ffi::OsString;
use std::io::{self, Write};
use std::path::PathBuf;

use warpboulder::{encode_integers, try_analyze, varint, Encoding, Error};

use crate::arguments::{usage, Arguments, ENCODING, FORCE, LEVEL};
use crate::failure::Failure;
use crate::input::Input;
use crate::keys::Column;
use crate::memory;
use crate::options;
use crate::output::Output;
use crate::progress::Progress;
use crate::reading;
use crate::wording::{counted, percent, share};

/// A file is written in pieces, so that the progress can be told.
const PIECE_BYTES: usize = 1 << 20;

pub fn run(arguments: &Arguments) -> Result<(), Failure> {
    let source = options::key_source("pack", arguments)?;
    if arguments.has(&LEVEL) && arguments.has(&ENCODING) {
        return Err(usage(
            "--level is for planning, and --encoding leaves nothing to plan; give one of them.".to_string(),
        ));
    }
    let level = options::level(arguments)?;
    let named = options::encoding(arguments)?;
    let output = output(arguments, &source.input)?;
    output.check(&source.input, arguments.has(&FORCE))?;
    let progress = Progress::start();
    let column = source.read(&progress)?;
    let refused = |error: Error| Failure::Failed(format!("{} is refused: {error}.", column.title));
    let encoding = match named {
        Some(encoding) => encoding,
        None => {
            progress.phase("planning", None);
            try_analyze(&column.keys, level).map_err(refused)?.encoding
        }
    };
    progress.phase("packing", None);
    let mut chunk = memory::room_for_chunk(column.keys.len())?;
    encode_integers(&column.keys, encoding, &mut chunk).map_err(refused)?;
    progress.phase("checking", None);
    check(&chunk, &column)?;
    write(&output, &chunk, &progress)?;
    drop(progress);
    // The chunk is in place: where standard error cannot be written there is only nobody to tell.
    let _ = writeln!(io::stderr(), "{}", summary(&column, encoding, chunk.len(), &output));
    Ok(())
}

/// The file that `-o` names, or FILE with `.wb` at its end, or standard output where the keys come from standard input.
fn output(arguments: &Arguments, input: &Input) -> Result<Output, Failure> {
    match (options::output(arguments)?, input) {
        (Some(output), _) => Ok(output),
        (None, Input::Standard) => options::standard_output_for_bytes("a chunk"),
        (None, Input::File(path)) => {
            let mut name = OsString::from(path);
            name.push(".wb");
            Ok(Output::File { path: PathBuf::from(name), may_replace: arguments.has(&FORCE) })
        }
    }
}

/// Reads the chunk back as strictly as can be. The proofs say that the keys come back; this says it of this machine and this run.
fn check(chunk: &[u8], column: &Column) -> Result<(), Failure> {
    let wrong =
        |what: String| Err(Failure::Failed(format!("the chunk of {} {what}; nothing was written.", column.title)));
    memory::check_for_keys(chunk)?;
    match reading::decode(chunk, None, true) {
        Ok(keys) if keys == column.keys => Ok(()),
        Ok(_) => wrong("reads back as other keys".to_string()),
        Err(error) => wrong(format!("does not read back: {error}")),
    }
}

fn write(output: &Output, chunk: &[u8], progress: &Progress) -> Result<(), Failure> {
    progress.phase("writing", Some(chunk.len() as u64));
    output.write(|writer| {
        for piece in chunk.chunks(PIECE_BYTES) {
            writer.write_all(piece)?;
            progress.advance(piece.len());
        }
        Ok(())
    })
}

fn summary(column: &Column, encoding: Encoding, length: usize, output: &Output) -> String {
    let count = column.keys.len();
    let plain = 2 + varint::uvarint_len(count as u64) + 8 * count;
    format!(
        "{}: {} packed as {} in {} ({} of Plain, ratio {:.2}) to {}",
        column.title,
        counted(count, "key", "keys"),
        encoding.name(),
        counted(length, "byte", "bytes"),
        percent(share(length, plain)),
        share(plain, length),
        output.name()
    )
}
