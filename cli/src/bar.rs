//! Bars whose length is a number.

const EIGHTHS: [char; 8] = [' ', '▏', '▎', '▍', '▌', '▋', '▊', '▉'];

/// A bar for a fraction of a width in characters: in eighths of a block, or in `#` where only ASCII is shown. What is more than
/// nothing has at least the smallest mark.
pub fn bar(fraction: f64, width: usize, unicode: bool) -> String {
    let parts = if unicode { 8 } else { 1 };
    let most = width * parts;
    // `as` takes a fraction that is no number as 0, and one out of range as the nearest end.
    let rounded = (fraction * most as f64).round() as usize;
    let filled = rounded.clamp(usize::from(fraction > 0.0), most);
    let mut out = if unicode { "█" } else { "#" }.repeat(filled / parts);
    if filled % parts > 0 {
        out.push(EIGHTHS[filled % parts]);
    }
    out
}

#[cfg(test)]
mod tests {
    use super::bar;

    #[test]
    fn a_bar_is_as_long_as_its_fraction() {
        assert_eq!(bar(1.0, 4, true), "████");
        assert_eq!(bar(0.5, 4, true), "██");
        assert_eq!(bar(0.53125, 4, true), "██▏");
        assert_eq!(bar(0.5, 4, false), "##");
        assert_eq!(bar(0.0, 4, true), "");
    }

    #[test]
    fn a_bar_never_leaves_its_width_and_never_hides_a_little() {
        assert_eq!(bar(3.0, 4, false), "####");
        assert_eq!(bar(f64::NAN, 4, false), "");
        assert_eq!(bar(0.0001, 4, true), "▏");
        assert_eq!(bar(0.0001, 4, false), "#");
    }
}
