// `measure`: its surfaces are admitted and of every kind, and what is found of them is sound.

use crate::measure::{admitted, measure, metal};
use crate::sheet::limits;
use crate::traced::{Count, Of};
use crate::values::Rng;

#[test]
fn surfaces_of_every_kind_are_admitted() {
    let mut rng = Rng::new(5);
    let mut codes = [0; 8];
    let mut layers = [0; 17];
    let mut orders = [0; 3];
    let mut zeros = [0; 2];
    let mut large = 0;
    for _ in 0..20_000 {
        let sheet = admitted(&mut rng);
        assert!(limits(&sheet).is_ok());
        let surface = &sheet.surfaces[0];
        codes[surface.coating as usize] += 1;
        layers[surface.layers.len()] += 1;
        let order = surface.n_incident.total_cmp(&surface.n_substrate);
        orders[(order as i8 + 1) as usize] += 1;
        large += usize::from(surface.angle.abs() > 1e100);
        for layer in surface.films(sheet.wavelength) {
            zeros[usize::from(layer.k.is_sign_negative())] += 1;
        }
    }
    for seen in [&codes[..], &layers, &orders, &zeros, &[large]] {
        assert!(seen.iter().all(|count| *count > 20), "{seen:?}");
    }
}

#[test]
fn what_is_found_is_sound() {
    let seen = measure(7, 20_000, admitted);
    assert!(seen.sound(), "{}", seen.table());
    assert_eq!(seen.counted(Count::Surfaces), 20_000);
    for never in [
        Count::Different,
        Count::Guard,
        Count::Total,
        Count::LeastCos,
    ] {
        assert_eq!(seen.counted(never), 0);
    }
    assert!(seen.counted(Count::TransmittanceS) > 0);
    // The limits that the figures of docs/CLAIMS.md come near to.
    assert!(seen.extreme(Of::ProductS) < 65_f64.powi(4) * 1.000001);
    assert!(seen.extreme(Of::ProductP) < 4_f64.powi(8) * 1.000001);
    assert!(seen.extreme(Of::ByDenS) > 15.0 / 28.0 * 0.999999);
    assert!(seen.extreme(Of::ByDenP) > 4.0 * 0.999999);
    assert_eq!(seen.table(), measure(7, 20_000, admitted).table());
}

/// Surfaces with layers of metal: their guards never act, and s and p are alike.
#[test]
fn metal_films_are_sound() {
    let seen = measure(7, 20_000, metal);
    assert!(seen.sound(), "{}", seen.table());
    for never in [
        Count::Different,
        Count::Guard,
        Count::Total,
        Count::LeastCos,
        Count::Reflectance,
    ] {
        assert_eq!(seen.counted(never), 0);
    }
    assert!(seen.extreme(Of::LayerS) < 8e7);
    assert!(seen.extreme(Of::ProductS) < 1e12);
    assert!(seen.extreme(Of::ByDenS) > 3.99);
    assert_eq!(seen.extreme(Of::ProductS), seen.extreme(Of::ProductP));
}
