//! Figures as the tables have them.

/// A whole number with a comma before each three digits.
pub fn whole(number: u64) -> String {
    let digits = number.to_string();
    let mut text = String::new();
    for (k, digit) in digits.chars().enumerate() {
        if k > 0 && (digits.len() - k) % 3 == 0 {
            text.push(',');
        }
        text.push(digit);
    }
    text
}

/// A number with one decimal, and none if it is large.
pub fn rounded(number: f64) -> String {
    if number < 1_000.0 {
        format!("{number:.1}")
    } else {
        whole(number.round() as u64)
    }
}
