//! Short columns, whose keys are stored.

use crate::numbers::Source;

/// No two columns are the same.
pub fn all(source: &mut Source) -> Vec<Vec<i64>> {
    let mut all = samples();
    for count in 0..=20 {
        // one key: every shape; more: half of the shapes by turns
        let step = if count == 1 { 1 } else { 2 };
        all.extend(shapes(count, source).into_iter().skip(count % step).step_by(step));
    }
    all.extend(longer(source));
    let mut seen = std::collections::BTreeSet::new();
    all.retain(|column| seen.insert(column.clone()));
    all
}

/// Columns of document 01's sample sheet, and others of its kind.
pub fn samples() -> Vec<Vec<i64>> {
    let jump = [vec![0; 129], vec![1_000]].concat();
    vec![
        vec![],
        vec![0],
        vec![5; 4],
        vec![i64::MIN, i64::MAX],
        vec![i64::MAX, i64::MIN],
        vec![i64::MIN],
        vec![i64::MAX],
        vec![-1],
        vec![0, i64::MIN],
        vec![i64::MIN, 0, i64::MIN],
        vec![0, -1, 1, -2, 2],
        vec![7, 7, 7, 7, 9, 9],
        (0..=200).collect(),
        jump,
    ]
}

/// A column of each shape.
pub fn shapes(count: usize, source: &mut Source) -> Vec<Vec<i64>> {
    let start = source.below(1 << 40) as i64;
    let far = [source.word() as i64, source.word() as i64, source.word() as i64];
    vec![
        column(count, |_| -3),
        column(count, |i| start + 3 * i),
        column(count, |i| 9 - 11 * i),
        column(count, |_| source.word() as i64),
        column(count, |i| [i64::MIN, i64::MAX][i as usize % 2]),
        column(count, |i| 40 - i / 4),
        column(count, |_| far[source.below(3) as usize]),
        column(count, |i| start + 1_000_000 * i + source.below(3_000) as i64),
        column(count, |i| if i % 7 == 3 { i64::MAX - i } else { source.below(20) as i64 }),
        column(count, |_| -1 - source.below(100) as i64),
        column(count, |_| near_a_power(source)),
        column(count, |_| source.below(4) as i64),
        column(count, |i| if i % 2 == 0 { i } else { -i }),
        column(count, |_| source.any_width() as i64),
    ]
}

fn column(count: usize, key: impl FnMut(i64) -> i64) -> Vec<i64> {
    (0..count as i64).map(key).collect()
}

/// A power of two or its neighbour, of either sign.
fn near_a_power(source: &mut Source) -> i64 {
    let power = 1u64 << source.below(64);
    let near = power.wrapping_add(source.below(3)).wrapping_sub(1) as i64;
    [near, near.wrapping_neg()][source.below(2) as usize]
}

/// More than one block of deltas, in shapes that give short chunks.
fn longer(source: &mut Source) -> Vec<Vec<i64>> {
    vec![
        column(131, |i| 100_000 + 5 * i),
        column(258, |i| -i / 60),
        column(130, |_| 70 + source.below(6) as i64),
        column(257, |i| i * i),
        column(300, |_| [-1_000_000, 3, 1 << 40][source.below(3) as usize]),
    ]
}
