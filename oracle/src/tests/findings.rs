// docs/DIFFERENCES.md: the original gives every number that it names, and it names every number found.

use crate::findings::findings;
use crate::reference::polarization::JonesVector;
use crate::reference::thin_film::Complex;

const DIFFERENCES: &str = include_str!("../../../docs/DIFFERENCES.md");

#[test]
fn each_finding_is_as_noted() {
    for (title, list) in findings() {
        assert!(!list.is_empty());
        for found in list {
            assert_eq!(found.gives, found.noted, "{title}: {}", found.call);
        }
    }
}

#[test]
fn each_number_stands_in_the_document() {
    for (title, list) in findings() {
        for found in list.iter().filter(|found| found.noted != "true") {
            let noted = found.noted.trim_end_matches("+0.0000i").trim_end();
            let said = DIFFERENCES.contains(noted) || noted == "0.0000" || noted == "[true, true]";
            assert!(said, "{title}: {}: {noted}", found.call);
        }
    }
}

/// Born and Wolf's formulas in whole numbers: |Ex|² ± |Ey|², 2·Re(Ex·Ey*), 2·Im(Ex*·Ey).
#[test]
fn stokes_of_whole_amplitudes_is_born_and_wolfs() {
    let conjugate = |[re, im]: [i64; 2]| [re, -im];
    let times = |[a, b]: [i64; 2], [c, d]: [i64; 2]| [a * c - b * d, a * d + b * c];
    let size = |z: [i64; 2]| times(z, conjugate(z))[0];
    let amplitude = |[re, im]: [i64; 2]| Complex::new(re as f64, im as f64);
    let parts = [-94_906_265_i64, -3, -1, 0, 1, 2, 67_108_863];
    for i in 0..parts.len().pow(4) {
        let part = |place: u32| parts[i / parts.len().pow(place) % parts.len()];
        let (x, y) = ([part(0), part(1)], [part(2), part(3)]);
        if size(x) + size(y) > 1 << 52 {
            continue;
        }
        let found = JonesVector::new(amplitude(x), amplitude(y)).to_stokes();
        let cross = times(x, conjugate(y))[0];
        let turn = times(conjugate(x), y)[1];
        let whole = [size(x) + size(y), size(x) - size(y), 2 * cross, 2 * turn];
        let exact = whole.map(|n| n as f64);
        assert_eq!(
            [found.s0, found.s1, found.s2, found.s3],
            exact,
            "{x:?} {y:?}"
        );
    }
}
