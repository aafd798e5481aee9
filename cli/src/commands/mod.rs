//! The commands.

mod inspect;
mod pack;
mod plan;
mod stats;
mod unpack;
mod verify;

use crate::arguments::{Arguments, Flag, COLUMN, ENCODING, FORCE, FROM, HEADER, HELP, LEVEL, OUTPUT, STRICT, TO};
use crate::failure::Failure;
use crate::help;

pub struct Command {
    pub name: &'static str,
    pub flags: &'static [&'static Flag],
    pub help: &'static str,
    pub run: fn(&Arguments) -> Result<(), Failure>,
}

pub const COMMANDS: [Command; 6] = [
    Command { name: "plan", flags: &[&LEVEL, &FROM, &COLUMN, &HEADER, &HELP], help: help::PLAN, run: plan::run },
    Command {
        name: "pack",
        flags: &[&OUTPUT, &LEVEL, &ENCODING, &FROM, &COLUMN, &HEADER, &FORCE, &HELP],
        help: help::PACK,
        run: pack::run,
    },
    Command {
        name: "unpack",
        flags: &[&OUTPUT, &TO, &STRICT, &ENCODING, &FORCE, &HELP],
        help: help::UNPACK,
        run: unpack::run,
    },
    Command { name: "inspect", flags: &[&HELP], help: help::INSPECT, run: inspect::run },
    Command { name: "verify", flags: &[&STRICT, &ENCODING, &HELP], help: help::VERIFY, run: verify::run },
    Command { name: "stats", flags: &[&FROM, &COLUMN, &HEADER, &HELP], help: help::STATS, run: stats::run },
];

#[cfg(test)]
mod tests {
    use super::COMMANDS;
    use crate::help;

    #[test]
    fn the_help_tells_of_every_command_and_every_option() {
        for command in &COMMANDS {
            assert!(help::overview().contains(&format!("\n  {} ", command.name)), "{}", command.name);
            assert!(command.help.contains(&format!("warpboulder {}", command.name)), "{}", command.name);
            for flag in command.flags {
                assert!(command.help.contains(&format!("\n  {}", flag.short.unwrap_or(flag.name))), "{}", flag.name);
            }
        }
    }

    #[test]
    fn the_help_fits_a_narrow_terminal() {
        let texts = COMMANDS.iter().map(|command| command.help.to_string()).chain([help::overview()]);
        for line in texts.flat_map(|text| text.lines().map(str::to_string).collect::<Vec<_>>()) {
            assert!(line.len() <= 80, "{line}");
        }
    }
}
