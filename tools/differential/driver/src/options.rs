//! The command line.

use crate::families::{Family, FAMILIES};
use crate::job::Setting;
use crate::plants::{Plant, PLANTS};

pub struct Options {
    pub setting: Setting,
    pub seed: u64,
    /// One family alone.
    pub family: Option<&'static str>,
    pub plant: Option<&'static Plant>,
    /// All plants, one after the other, each until it is found.
    pub plants: bool,
    /// Buffers are allocations of their own, for valgrind.
    pub exact: bool,
}

impl Options {
    pub fn from_arguments() -> Result<Options, String> {
        let mut options =
            Options { setting: Setting::Full, seed: 1, family: None, plant: None, plants: false, exact: false };
        let mut arguments = std::env::args().skip(1);
        while let Some(argument) = arguments.next() {
            match argument.as_str() {
                "--quick" => options.setting = Setting::Quick,
                "--small" => options.setting = Setting::Small,
                "--exact" => options.exact = true,
                "--plants" => options.plants = true,
                "--seed" => options.seed = seed(arguments.next())?,
                "--family" => options.family = Some(family(arguments.next())?),
                "--plant" => options.plant = Some(plant(arguments.next())?),
                _ => {
                    return Err(format!("there is no option {argument}; the head of tools/differential/run has them."))
                }
            }
        }
        Ok(options)
    }

    /// The families that are asked for.
    pub fn families(&self) -> impl Iterator<Item = (usize, &'static Family)> + '_ {
        FAMILIES.iter().enumerate().filter(|(_, family)| self.family.is_none_or(|name| name == family.name))
    }
}

fn seed(argument: Option<String>) -> Result<u64, String> {
    argument.and_then(|text| text.parse().ok()).ok_or("--seed needs a number from 0 to 2^64 - 1.".to_string())
}

fn family(argument: Option<String>) -> Result<&'static str, String> {
    let names = FAMILIES.map(|family| family.name);
    let found = argument.and_then(|name| names.into_iter().find(|&known| known == name));
    found.ok_or_else(|| format!("--family needs one of {}.", names.join(", ")))
}

fn plant(argument: Option<String>) -> Result<&'static Plant, String> {
    let found = argument.and_then(|name| Plant::named(&name));
    found.ok_or_else(|| format!("--plant needs one of {}.", PLANTS.map(|plant| plant.name).join(", ")))
}
