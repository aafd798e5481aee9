//! What standard output can show: colours and block characters.

use std::env;
use std::io::{self, IsTerminal};

/// How a report may be painted.
#[derive(Clone, Copy)]
pub struct Style {
    pub colour: bool,
    pub unicode: bool,
}

impl Style {
    /// Colours only on a terminal whose user has not asked for none (no-color.org).
    pub fn of_standard_output() -> Style {
        let wanted = env::var_os("NO_COLOR").is_none_or(|value| value.is_empty());
        Style { colour: wanted && understands_escapes() && io::stdout().is_terminal(), unicode: is_utf8_locale() }
    }

    pub fn strong(self, text: &str) -> String {
        self.painted("1", text)
    }

    pub fn faint(self, text: &str) -> String {
        self.painted("2", text)
    }

    pub fn good(self, text: &str) -> String {
        self.painted("1;32", text)
    }

    pub fn bad(self, text: &str) -> String {
        self.painted("1;31", text)
    }

    fn painted(self, code: &str, text: &str) -> String {
        if self.colour {
            format!("\x1b[{code}m{text}\x1b[0m")
        } else {
            text.to_string()
        }
    }
}

/// Whether the terminal takes the escapes that colour text and erase a line.
pub fn understands_escapes() -> bool {
    env::var_os("TERM").is_none_or(|name| name != "dumb")
}

/// Whether the locale's characters are UTF-8: the first of these variables that says anything decides, as for every program.
pub fn is_utf8_locale() -> bool {
    let variables = ["LC_ALL", "LC_CTYPE", "LANG"];
    let locale = variables.iter().filter_map(env::var_os).find(|value| !value.is_empty());
    locale.is_some_and(|locale| {
        let name = locale.to_string_lossy().to_ascii_lowercase();
        name.ends_with("utf-8") || name.ends_with("utf8")
    })
}
