//! `unpack`: writes the keys of a chunk as text or as binary.

use std::io::{self, IsTerminal, Write};
use std::os::unix::ffi::OsStrExt;

use crate::arguments::{usage, Arguments, FORCE, STRICT, TO};
use crate::chunk_file;
use crate::failure::Failure;
use crate::keys::Format;
use crate::memory;
use crate::options;
use crate::output::{till_closed, Output};
use crate::progress::Progress;
use crate::reading;
use crate::wording::{counted, quoted};

/// Keys are written in pieces, so that the progress can be told.
const PIECE_KEYS: usize = 1 << 14;

#[derive(Clone, Copy, PartialEq, Eq)]
enum Form {
    Text,
    Binary,
}

pub fn run(arguments: &Arguments) -> Result<(), Failure> {
    let input = options::chunk_input("unpack", arguments)?;
    let encoding = options::encoding(arguments)?;
    let (output, form) = output(arguments)?;
    output.check(&input, arguments.has(&FORCE))?;
    let mut progress = Progress::start();
    let chunk = chunk_file::read(&input, &progress)?;
    progress.phase("unpacking", None);
    memory::check_for_keys(&chunk)?;
    let keys = reading::decode(&chunk, encoding, arguments.has(&STRICT))
        .map_err(|error| Failure::Failed(format!("{} is refused: {error}.", input.name())))?;
    if output == Output::Standard && io::stdout().is_terminal() {
        // The keys themselves show how far it is.
        progress.finish();
    }
    let written = write(&keys, form, &output, &progress);
    let is_for_people = form == Form::Text && output == Output::Standard;
    if is_for_people { till_closed(written) } else { written }?;
    progress.finish();
    if output != Output::Standard {
        let count = counted(keys.len(), "key", "keys");
        // The keys are in place: where standard error cannot be written there is only nobody to tell.
        let _ = writeln!(io::stderr(), "{}: {count} unpacked to {}", input.name(), output.name());
    }
    Ok(())
}

/// The output and the form of the keys there: what `--to` says, else what the ending of the output says.
fn output(arguments: &Arguments) -> Result<(Output, Form), Failure> {
    let named = options::output(arguments)?;
    let form = match arguments.value(&TO) {
        Some(word) if word == "text" => Form::Text,
        Some(word) if word == "binary" => Form::Binary,
        Some(word) => return Err(usage(format!("--to takes text or binary, not {}.", quoted(word.as_bytes())))),
        None => match &named {
            Some(Output::File { path, .. }) if Format::of_ending(path) == Format::Binary => Form::Binary,
            _ => Form::Text,
        },
    };
    let output = match named {
        Some(output) => output,
        None if form == Form::Binary => options::standard_output_for_bytes("a column of binary keys")?,
        None => Output::Standard,
    };
    Ok((output, form))
}

fn write(keys: &[i64], form: Form, output: &Output, progress: &Progress) -> Result<(), Failure> {
    progress.phase("writing", Some(keys.len() as u64));
    output.write(|writer| {
        let mut buffer = Vec::new();
        for piece in keys.chunks(PIECE_KEYS) {
            buffer.clear();
            match form {
                Form::Text => piece.iter().try_for_each(|key| writeln!(buffer, "{key}"))?,
                Form::Binary => piece.iter().for_each(|key| buffer.extend_from_slice(&key.to_le_bytes())),
            }
            writer.write_all(&buffer)?;
            progress.advance(piece.len());
        }
        Ok(())
    })
}
