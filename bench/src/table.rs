//! Markdown tables: a row for each kernel and depth, a column for each size.

use crate::pair::Pair;

const SIZES: [usize; 4] = [4, 8, 16, 64];

/// A table of what `cell` shows of each pair. The pairs of a row stand together.
pub fn print(title: &str, pairs: &[Pair], cell: fn(&Pair) -> String) {
    println!("{title}\n\n| kernel | depth | 4x4 | 8x8 | 16x16 | 64x64 | goal |\n|---|---|---|---|---|---|---|");
    for row in pairs.chunk_by(|a, b| (a.place, a.depth) == (b.place, b.depth)) {
        let shown = |size: &usize| row.iter().find(|pair| pair.size == *size).map(cell).unwrap_or_default();
        let cells: Vec<String> = SIZES.iter().map(shown).collect();
        let goal = Some(row[0].goal).filter(|goal| goal.is_finite()).map(|goal| format!("{goal:.2}"));
        println!("| {} | {} | {} | {} |", row[0].name, row[0].depth, cells.join(" | "), goal.unwrap_or_default());
    }
    println!();
}

/// The ratio, in bold where it misses the goal, which is asked from 8x8 up.
pub fn ratio(pair: &Pair) -> String {
    let ratio = pair.ours_ns / pair.rust_ns;
    if pair.size >= 8 && ratio > pair.goal { format!("**{ratio:.2}**") } else { format!("{ratio:.2}") }
}

pub fn times(pair: &Pair) -> String {
    format!("{:.1} {:.1}", pair.rust_ns, pair.ours_ns)
}
