//! The command line.

/// Our calls refuse more values, as document 01 says.
const MOST_VALUES: usize = 1 << 24;
const MOST_ROUNDS: usize = 1_000_000;

pub struct Options {
    pub count: usize,
    pub rounds: usize,
    pub markdown: bool,
    pub leaves: bool,
    pub codecs: bool,
    pub analysis: bool,
    pub growth: bool,
}

impl Options {
    /// The parts that are named, or the whole where none is.
    pub fn from_arguments() -> Result<Options, String> {
        let mut options = Options {
            count: 1_000_000,
            rounds: 25,
            markdown: false,
            leaves: false,
            codecs: false,
            analysis: false,
            growth: false,
        };
        let mut arguments = std::env::args().skip(1);
        while let Some(argument) = arguments.next() {
            options.take(&argument, &mut arguments)?;
        }
        if !(options.of_whole() || options.growth) {
            (options.leaves, options.codecs, options.analysis) = (true, true, true);
        }
        Ok(options)
    }

    fn take(&mut self, argument: &str, rest: &mut impl Iterator<Item = String>) -> Result<(), String> {
        match argument {
            "--count" => self.count = number(argument, rest.next(), MOST_VALUES)?,
            "--rounds" => self.rounds = number(argument, rest.next(), MOST_ROUNDS)?,
            "--markdown" => self.markdown = true,
            "--leaves" => self.leaves = true,
            "--codecs" => self.codecs = true,
            "--analysis" => self.analysis = true,
            "--growth" => self.growth = true,
            _ => {
                return Err(format!(
                    "there is no option {argument}; the options are --count VALUES, --rounds ROUNDS, --markdown, \
                     --leaves, --codecs, --analysis and --growth."
                ))
            }
        }
        Ok(())
    }

    /// Whether there are rows for the table of the whole.
    pub fn of_whole(&self) -> bool {
        self.leaves || self.codecs || self.analysis
    }
}

fn number(option: &str, argument: Option<String>, most: usize) -> Result<usize, String> {
    argument
        .and_then(|text| text.parse().ok())
        .filter(|number| (1..=most).contains(number))
        .ok_or_else(|| format!("{option} needs a number from 1 to {most}."))
}
