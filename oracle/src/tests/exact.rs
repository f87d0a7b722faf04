// Whole numbers of any size, surfaces met head-on, and ranges of indices.

use crate::exact::{head_on, Natural};
use crate::head_on::{measure, pair};
use crate::ranges;
use crate::values::Rng;

fn of(x: u128) -> Natural {
    Natural::shifted((x >> 64) as u64, 64).plus(&Natural::new(x as u64))
}

#[test]
fn small_numbers_are_those_of_the_machine() {
    let mut rng = Rng::new(3);
    for _ in 0..10_000 {
        let (x, y) = (rng.bits() >> rng.below(64), rng.bits() >> rng.below(64));
        let (wide, far) = (u128::from(x), u128::from(y));
        let (a, b) = (Natural::new(x), Natural::new(y));
        assert_eq!(a.plus(&b), of(wide + far));
        assert_eq!(a.gap(&b), of(wide.abs_diff(far)));
        assert_eq!(a.times(&b), of(wide * far));
        assert_eq!(a.cmp(&b), x.cmp(&y));
    }
}

#[test]
fn large_numbers_add_and_multiply() {
    let big = Natural::power_of_two(2000);
    let (more, less) = (big.plus(&Natural::new(1)), big.gap(&Natural::new(1)));
    assert_eq!(
        more.times(&less),
        Natural::power_of_two(4000).gap(&Natural::new(1))
    );
    assert!(less < big && big < more);
    assert_eq!(big.ratio(&Natural::power_of_two(1990)), 1024.0);
}

#[test]
fn counts_are_of_the_smallest_f64() {
    assert_eq!(Natural::count(f64::from_bits(1)), Natural::new(1));
    assert_eq!(Natural::count(-1.0), Natural::power_of_two(1074));
    let least = f64::MIN_POSITIVE;
    assert_eq!(Natural::count(least), Natural::power_of_two(52));
    assert_eq!(Natural::count(0.0), Natural::default());
}

#[test]
fn one_and_three_reflect_a_quarter() {
    let (a, b) = head_on(1.0, 3.0);
    assert_eq!(a.times(&Natural::new(4)), b);
    assert_eq!(pair(1.0, 3.0, -0.0), [0.0; 4]);
}

#[test]
fn powers_head_on_are_within_the_proved_bounds() {
    assert!(measure(7, 20_000));
}

#[test]
fn ranges_of_indices_enclose_and_are_tight() {
    let mut rng = Rng::new(5);
    let mut answered = 0;
    for _ in 0..5_000 {
        let ends = ranges::random(&mut rng);
        let Some(found) = ranges::range(ends) else {
            continue;
        };
        answered += 1;
        let excess = ranges::excess(ends, found, 10, &mut rng);
        assert!(excess.is_ok(), "{excess:?} {ends:?} {found:?}");
    }
    assert!(answered > 2_500);
}

#[test]
fn a_range_that_is_too_narrow_or_too_wide_is_noticed() {
    let mut rng = Rng::new(5);
    let ends = [1.0, 1.0, 3.0, 3.0];
    let [low, high] = ranges::range(ends).expect("two ranges");
    assert!(low < 0.25 && 0.25 < high);
    assert!(ranges::excess(ends, [low, 0.25 - 1e-16], 10, &mut rng).is_err());
    assert!(ranges::excess(ends, [0.25 + 1e-16, high], 10, &mut rng).is_err());
    assert!(ranges::excess(ends, [low, high + 1e-14], 10, &mut rng).is_err());
    assert!(ranges::excess(ends, [-0.0, high], 10, &mut rng).is_err());
}

#[test]
fn ranges_are_refused_exactly_outside() {
    let inside = [1.0, 4.0, 1.5, 1.5];
    assert!(ranges::range(inside).is_some());
    for (place, bad) in [
        (0, 0.9999999999999999),
        (1, 4.000000000000001),
        (2, f64::NAN),
    ] {
        let mut ends = inside;
        ends[place] = bad;
        assert!(ranges::range(ends).is_none());
    }
    assert!(ranges::range([2.0, 1.0, 1.5, 1.5]).is_none());
}
