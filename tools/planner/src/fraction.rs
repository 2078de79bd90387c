//! Fractions as they are printed.

pub fn common_divisor(a: i128, b: i128) -> i128 {
    if b == 0 {
        a.abs()
    } else {
        common_divisor(b, a % b)
    }
}

/// In lowest terms with a positive lower number, which is left out where it is 1.
pub fn fraction(upper: i128, lower: i128) -> String {
    let d = common_divisor(upper, lower).max(1) * lower.signum();
    match lower / d {
        1 => format!("{}", upper / d),
        rest => format!("{}/{rest}", upper / d),
    }
}

/// So many places behind the point that four digits count, and four at least.
fn places(upper: i128, lower: i128) -> u32 {
    let few = |places: &u32| upper.abs() * 10i128.pow(*places) < 1000 * lower.abs();
    (4..20).find(|places| upper == 0 || !few(places)).unwrap_or(20)
}

/// As a decimal, rounded half away from 0.
pub fn decimal(upper: i128, lower: i128) -> String {
    let places = places(upper, lower);
    let one = 10i128.pow(places);
    let (upper, lower) = (upper * lower.signum(), lower.abs());
    let rounded = (2 * upper.abs() * one + lower) / (2 * lower);
    let sign = if upper < 0 { "-" } else { "" };
    format!("{sign}{}.{:0width$}", rounded / one, rounded % one, width = places as usize)
}

/// The decimal, and whether it is exact.
pub fn about(upper: i128, lower: i128) -> String {
    let text = decimal(upper, lower);
    if upper * 10i128.pow(places(upper, lower)) % lower != 0 {
        return format!("about {text}");
    }
    format!("exactly {}", text.trim_end_matches('0').trim_end_matches('.'))
}

/// With commas between thousands.
pub fn counted(number: usize) -> String {
    let digits = number.to_string();
    let mut text = String::new();
    for (i, digit) in digits.chars().enumerate() {
        if i > 0 && (digits.len() - i).is_multiple_of(3) {
            text.push(',');
        }
        text.push(digit);
    }
    text
}

#[cfg(test)]
mod tests {
    use super::*;

    #[test]
    fn fractions_are_reduced() {
        assert_eq!([fraction(6, 2), fraction(-3, 2), fraction(3, -2), fraction(0, 5)], ["3", "-3/2", "-3/2", "0"]);
    }

    #[test]
    fn decimals_are_rounded() {
        let found = [decimal(62, 43), decimal(-3, 2), decimal(2, 3), decimal(0, 7), decimal(10, -3)];
        assert_eq!(found, ["1.4419", "-1.5000", "0.6667", "0.0000", "-3.3333"]);
    }

    #[test]
    fn four_digits_of_a_small_number_count() {
        let found = [decimal(1, 20), decimal(-1, 120_000), decimal(16, 59_969), decimal(1, 20_480_000)];
        assert_eq!(found, ["0.05000", "-0.000008333", "0.0002668", "0.00000004883"]);
    }

    #[test]
    fn what_is_exact_is_told() {
        let found = [about(3, 1), about(9, 5), about(-9, 2), about(0, 1), about(1, 3), about(100, 1)];
        assert_eq!(found, ["exactly 3", "exactly 1.8", "exactly -4.5", "exactly 0", "about 0.3333", "exactly 100"]);
    }

    #[test]
    fn thousands_are_parted() {
        assert_eq!([counted(7), counted(2048), counted(1_000_000)], ["7", "2,048", "1,000,000"]);
    }
}
