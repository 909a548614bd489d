//! Tables: a row for each kind of sheets, with the median and the worst of each number.

/// Prints the head of a table whose columns have these names, and what stands behind them.
pub fn print_head(names: &[&str], behind: &str) {
    let over: String = names.iter().map(|name| format!("{name:>18}")).collect();
    println!("\n{:24}{over}{behind}", "");
    let under = format!("{:>9}{:>9}", "median", "worst").repeat(names.len());
    println!("{:<16}{:>8}{under}", "kind", "sheets");
}

/// Prints the row of a kind.
pub fn print_row(name: &str, sheets: usize, cells: &str) {
    println!("{name:<16}{sheets:>8}{cells}");
}

/// The median and the worst of some numbers, with so many decimals; dashes where there are none.
pub fn cells(numbers: &[f64], decimals: usize) -> String {
    let mut sorted = numbers.to_vec();
    sorted.sort_by(f64::total_cmp);
    match sorted.last() {
        None => format!("{:>9}{:>9}", "-", "-"),
        Some(worst) => {
            let median = sorted[sorted.len() / 2];
            format!("{median:>9.decimals$}{worst:>9.decimals$}")
        }
    }
}
