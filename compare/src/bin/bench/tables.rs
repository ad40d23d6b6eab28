//! The tables that are printed.

use crate::measure::{Rounds, Row};

/// Nanoseconds, with a decimal where they are few.
fn shown(nanoseconds: f64) -> String {
    if nanoseconds < 100.0 {
        format!("{nanoseconds:.1}")
    } else {
        format!("{nanoseconds:.0}")
    }
}

/// The median, the lowest and the highest round.
fn figure(rounds: &Rounds) -> String {
    let [median, lowest, highest] = [rounds.median(), rounds.lowest(), rounds.highest()].map(shown);
    format!("{median} ({lowest} to {highest})")
}

fn print_line(cells: &[String]) {
    println!("| {} |", cells.join(" | "));
}

fn print_head(cells: &[String]) {
    print_line(cells);
    println!("|---|{}", "---:|".repeat(cells.len() - 1));
}

fn texts<const N: usize>(cells: [&str; N]) -> [String; N] {
    cells.map(str::to_string)
}

pub fn times(rows: &[Row<2>]) {
    print_head(&texts([
        "Operation",
        "Library, ns",
        "Independent, ns",
        "Library / independent",
    ]));
    for row in rows {
        let [library, independent] = row.medians();
        let ratio = library / independent;
        print_line(&[
            row.name.clone(),
            format!("{library:.0}"),
            format!("{independent:.0}"),
            format!("{ratio:.2}"),
        ]);
    }
}

/// The library, first of the sides, beside the others; its speed over that of the plain ones,
/// which follow it.
pub fn beside<const N: usize>(title: &str, sides: [&str; N], plain: usize, rows: &[Row<N>]) {
    let mut head = vec![title.to_string()];
    head.extend(sides.map(|side| format!("{side}, ns")));
    let plain = 1..=plain;
    let named = sides[plain.clone()].iter();
    head.extend(named.map(|side| format!("Library's speed / {}", side.to_lowercase())));
    print_head(&head);
    for row in rows {
        let mut line = vec![row.name.clone()];
        line.extend(row.sides.iter().map(figure));
        let medians = row.medians();
        let slower = medians[plain.clone()].iter();
        line.extend(slower.map(|median| format!("{:.2}", median / medians[0])));
        print_line(&line);
    }
}

pub fn rates(rows: &[Row<2>]) {
    print_head(&texts(["Events per second", "Library", "Independent"]));
    for row in rows {
        let [library, independent] = row.medians().map(|median| 1e9 / median);
        print_line(&[
            row.name.clone(),
            format!("{library:.0}"),
            format!("{independent:.0}"),
        ]);
    }
}

/// Every round of each side, in their order.
pub fn rounds<const N: usize>(sides: [&str; N], rows: &[Row<N>]) {
    for row in rows {
        println!("{}", row.name);
        for (name, side) in sides.iter().zip(&row.sides) {
            let taken: Vec<String> = side.taken.iter().map(|taken| shown(*taken)).collect();
            println!("  {name}: {}", taken.join(", "));
        }
    }
}
