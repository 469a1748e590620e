//! Tables in Markdown, and plots in text.

/// The longest bar.
const BAR: f64 = 50.0;

pub fn head(title: &str, columns: &[&str]) {
    println!("\n{title}\n");
    println!("| {} |", columns.join(" | "));
    println!("|{}", "---|".repeat(columns.len()));
}

pub fn row(cells: &[String]) {
    println!("| {} |", cells.join(" | "));
}

/// A bar for each number of each row, as long as it is beside the largest of all.
pub fn plot<const N: usize>(what: &str, rows: &[(String, [(&str, f64); N])]) {
    let all = || rows.iter().flat_map(|(_, bars)| bars);
    let most = all().map(|(_, number)| *number).fold(0.0, f64::max);
    let wide = rows.iter().map(|(name, _)| name.len()).chain([what.len()]).max().unwrap_or(0);
    let name_wide = all().map(|(name, _)| name.len()).max().unwrap_or(0);
    println!("\n    {what:>wide$}");
    for (row, bars) in rows {
        for (place, (name, number)) in bars.iter().enumerate() {
            let row = if place == 0 { row } else { "" };
            let bar = "#".repeat((number / most * BAR).round() as usize);
            println!("    {row:>wide$}  {name:name_wide$}  {bar} {number:.0}");
        }
    }
}

/// A number with commas.
pub fn count(number: usize) -> String {
    let digits = number.to_string();
    let mut text = String::new();
    for (place, digit) in digits.chars().enumerate() {
        if place > 0 && (digits.len() - place).is_multiple_of(3) {
            text.push(',');
        }
        text.push(digit);
    }
    text
}

#[cfg(test)]
mod tests {
    use super::count;

    #[test]
    fn a_comma_stands_before_every_third_digit_from_the_end() {
        let texts = [0, 999, 1_000, 16_383, 5_556_267].map(count);
        assert_eq!(texts, ["0", "999", "1,000", "16,383", "5,556,267"]);
    }
}
