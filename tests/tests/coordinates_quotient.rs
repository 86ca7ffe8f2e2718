//! Request L2: "The result times that power differs from the product by at most the product's size over
//! 2^53, said over whole numbers." Over every power and a million products, random ones and those at the
//! edges, one division of floats keeps this bound, is the nearest float, and is what the independent
//! reader finds digit by digit.

use galebonnet_tests::generate::Random;
use galebonnet_tests::independent::coordinates::nearest;

/// Row values have 6 digits and factors 9.
const VALUES: i64 = 999_999;
const FACTORS: i64 = 999_999_999;

/// A float as a whole number over a power of two: its 53 digits with their sign, and the power. The
/// quotients lie between 10^-9 and 10^15, so the power is 2^3 to 2^82.
fn apart(float: f64) -> (i128, u32) {
    let bits = float.to_bits();
    let digits = i128::from(bits & ((1 << 52) - 1) | 1 << 52);
    let power = 1075 - (bits >> 52 & 0x7ff) as u32;
    assert!((3..=82).contains(&power), "{float}");
    (if float < 0.0 { -digits } else { digits }, power)
}

fn judged(product: i64, decimals: u32) {
    let power = 10i64.pow(decimals);
    let quotient = product as f64 / power as f64;
    assert_eq!(nearest(product, decimals).to_bits(), quotient.to_bits(), "{product} / {power}");
    if product == 0 {
        assert_eq!(quotient.to_bits(), 0);
        return;
    }
    let (digits, twos) = apart(quotient);
    // the result is digits / 2^twos: both sides times 2^twos, over whole numbers
    let exact = i128::from(product) << twos;
    let difference = digits * i128::from(power) - exact;
    assert!(difference.abs() << 53 <= exact.abs(), "the bound of {product} / {power}");
    // the nearest: at most half a unit of the last digit away, of two the even one; the float below a
    // power of two is nearer by half
    let half = 2 * difference.abs();
    let is_lowest = digits.abs() == 1 << 52 && (difference > 0) == (digits > 0);
    let near = if is_lowest { 2 * half <= i128::from(power) } else { half <= i128::from(power) };
    assert!(near && (half < i128::from(power) || digits % 2 == 0), "the nearest of {product} / {power}");
}

/// Products at the edges of what digits allow, and around powers of two and of ten.
fn edges() -> Vec<i64> {
    let mut products = vec![0, VALUES, FACTORS, VALUES * FACTORS, VALUES * FACTORS - 1];
    for two in 0..50 {
        products.extend([(1 << two) - 1, 1 << two, (1 << two) + 1]);
    }
    for ten in 0..15 {
        products.extend([10i64.pow(ten) - 1, 10i64.pow(ten) + 1, 5 * 10i64.pow(ten)]);
    }
    products
}

/// A number of 1 to so many digits.
fn digits(random: &mut Random, most: usize) -> i64 {
    let count = 1 + random.below(most) as u32;
    random.below(10usize.pow(count)) as i64
}

#[test]
fn the_quotient_keeps_its_bound_and_is_the_nearest_float() {
    let mut random = Random::new(71);
    let edges = edges();
    let mut judgements = 0;
    for decimals in 0..=9 {
        for &product in &edges {
            judged(product, decimals);
            judged(-product, decimals);
        }
        for _ in 0..100_000 {
            let (value, factor) = (digits(&mut random, 6), digits(&mut random, 9));
            judged(if random.chance(50) { value * factor } else { -value * factor }, decimals);
            judgements += 1;
        }
    }
    assert_eq!(judgements, 1_000_000);
}
