//! What is printed: rows as they are timed, and at the end a summary of each group.

use crate::timing::Timed;

/// The rows of one group: how many, and which has the highest ratio.
pub struct Sheet {
    group: &'static str,
    rows: usize,
    above: usize,
    highest: f64,
    at: String,
}

impl Sheet {
    pub fn new(group: &'static str) -> Sheet {
        Sheet { group, rows: 0, above: 0, highest: 0.0, at: String::new() }
    }

    /// Prints a row and counts it. `front` is what its first columns say, `name` what the summary
    /// calls it; the times are of the library, of plain Rust and of the floor.
    pub fn row(&mut self, front: &str, name: &str, [library, plain, floor]: [Timed; 3]) {
        let ratio = library.ratio(plain);
        println!(
            "{front:FRONT$} {} {} {ratio:>7.3} {:>8} {:>8.1}",
            time(library),
            time(plain),
            floor.middle(),
            library.ratio(floor),
        );
        self.rows += 1;
        self.above += usize::from(ratio > 1.0);
        if ratio > self.highest {
            self.highest = ratio;
            self.at = name.into();
        }
    }
}

/// How wide the columns before the times are.
const FRONT: usize = 55;

fn time(timed: Timed) -> String {
    format!("{:>8} {:15}", timed.middle(), timed.spread())
}

/// The names of the columns, with those of the first ones before them.
pub fn heading(front: &str) {
    println!(
        "{front:FRONT$} {:>8} {:15} {:>8} {:15} {:>7} {:>8} {:>8}",
        "library", "(spread)", "plain", "(spread)", "ratio", "floor", "to floor"
    );
}

/// The highest ratio of each group and the number of rows above 1.
pub fn summary(sheets: &[Sheet]) {
    println!("Summary: the ratio of the library to plain Rust.");
    println!(
        "{:12} {:>5} {:>10} {:>8}  the highest is of",
        "group", "rows", "above 1.0", "highest"
    );
    for Sheet { group, rows, above, highest, at } in sheets {
        println!("{group:12} {rows:>5} {above:>10} {highest:>8.3}  {at}");
    }
    let rows: usize = sheets.iter().map(|sheet| sheet.rows).sum();
    let above: usize = sheets.iter().map(|sheet| sheet.above).sum();
    let highest = sheets.iter().map(|sheet| sheet.highest).fold(0.0, f64::max);
    println!("{:12} {rows:>5} {above:>10} {highest:>8.3}", "all");
}
