// `oracle head_on`: surfaces without layers met head-on, and how far their powers are from exact ones (document 02, slip 13).

use crate::exact::{head_on, Natural};
use crate::reference::fresnel::fresnel_dielectric;
use crate::reference::thin_film::{Coating, SurfaceCoating};
use crate::values::{neighbour, Rng};

/// What is measured: its name, and the bound that is proved, both in 2^-53.
const OF: [(&str, f64); 4] = [
    ("R + T of a custom surface, from 1", 12.0),
    ("its R, of the exact fraction", 12.0),
    ("its T, of the exact fraction", 12.0),
    ("R of a bare surface, of the exact fraction", 8.0),
];

/// An index from 1 to 4, its ends and its neighbour often.
fn index(rng: &mut Rng, beside: f64) -> f64 {
    let x = match rng.below(8) {
        0 => rng.pick(&[1.0, 4.0, 2.0, 1.5]),
        1 => neighbour(beside, rng.below(17) as i64 - 8),
        2 => neighbour(rng.pick(&[1.0, 2.0, 4.0]), rng.below(33) as i64 - 16),
        _ => rng.uniform(1.0, 4.0),
    };
    x.clamp(1.0, 4.0)
}

/// |x - a/b| in 2^-53 of a/b; 0 where both are 0.
fn off(x: f64, a: &Natural, b: &Natural) -> f64 {
    let exact = a.times(&Natural::power_of_two(1074));
    let gap = Natural::count(x).times(b).gap(&exact);
    if gap == Natural::default() {
        return 0.0;
    }
    gap.times(&Natural::power_of_two(53)).ratio(&exact)
}

/// The four of a pair of indices, in 2^-53, the larger of s and p.
pub fn pair(n1: f64, n2: f64, angle: f64) -> [f64; 4] {
    let custom = SurfaceCoating::Custom(Coating::Multilayer { layers: Vec::new() });
    let response = custom
        .evaluate(n1, n2, angle, 550.0)
        .expect("nothing to refuse");
    let whole = Natural::power_of_two(1074);
    let (a, b) = head_on(n1, n2);
    let product = Natural::new(4)
        .times(&Natural::count(n1))
        .times(&Natural::count(n2));
    let mut found = [0f64; 4];
    let sides = [
        (response.reflectance_s, response.transmittance_s),
        (response.reflectance_p, response.transmittance_p),
    ];
    for (r, t) in sides {
        assert!(r >= 0.0 && t >= 0.0);
        let sum = Natural::count(r).plus(&Natural::count(t));
        let parts = sum.gap(&whole).times(&Natural::power_of_two(53));
        found[0] = found[0].max(parts.ratio(&whole));
        found[1] = found[1].max(off(r, &a, &b));
        found[2] = found[2].max(off(t, &product, &b));
    }
    let (rs, rp) = fresnel_dielectric(1.0, n1, n2);
    found[3] = off(rs, &a, &b).max(off(rp, &a, &b));
    found
}

/// Random pairs, and pairs beside the worst so far; prints the largest of each. True where all are within the bounds.
pub fn measure(seed: u64, count: u64) -> bool {
    let mut rng = Rng::new(seed);
    let mut worst = [(0f64, 1f64, 1f64); 4];
    for _ in 0..count {
        let (n1, n2) = if rng.one_in(2) {
            let (_, x, y) = rng.pick(&worst);
            let far = 1 << rng.below(40);
            let mut step = |x: f64| neighbour(x, rng.below(2 * far + 1) as i64 - far as i64);
            (step(x).clamp(1.0, 4.0), step(y).clamp(1.0, 4.0))
        } else {
            let x = index(&mut rng, 1.0);
            (x, index(&mut rng, x))
        };
        let angle = rng.pick(&[0.0, -0.0]);
        for (found, best) in pair(n1, n2, angle).into_iter().zip(&mut worst) {
            if found > best.0 {
                *best = (found, n1, n2);
            }
        }
    }
    println!("{count} pairs of indices; the largest of each, in 2^-53");
    for ((name, bound), (found, x, y)) in OF.iter().zip(worst) {
        println!("{found:.3} of {bound} | {name} | {x:?} {y:?}");
    }
    OF.iter().zip(worst).all(|(of, found)| found.0 <= of.1)
}
