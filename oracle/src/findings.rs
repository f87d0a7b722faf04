// What docs/DIFFERENCES.md says of the original, each number worked out by running it.

use crate::functions::names::from_format_name;
use crate::section2;
use std::fmt::Display;

/// A call, what it gives, and what docs/DIFFERENCES.md says that it gives.
pub struct Finding {
    pub call: &'static str,
    pub gives: String,
    pub noted: &'static str,
}

fn finding(call: &'static str, gives: impl Display, noted: &'static str) -> Finding {
    let gives = gives.to_string();
    Finding { call, gives, noted }
}

fn hex(x: f64) -> String {
    format!("0x{:016X}", x.to_bits())
}

/// Findings that hold with section 2's meanings and with the platform's functions alike: one text, over both.
mod with_section_2 {
    use crate::reference as original;
    include!("findings/original.rs");
}
mod with_the_platform {
    use crate::authors as original;
    include!("findings/original.rs");
}

/// Findings that need section 2's own bits, and section 2 beside the platform.
fn of_section_2() -> Vec<Finding> {
    use crate::reference::fresnel::fresnel_dielectric;
    use crate::reference::polarization::surface_fresnel_jones;
    use crate::reference::thin_film::{Coating, SurfaceCoating};

    let bare = SurfaceCoating::Custom(Coating::Multilayer { layers: Vec::new() });
    let solved =
        |n0: f64, n1: f64, angle: f64| bare.evaluate(n0, n1, angle, 550.0).expect("an answer");
    let critical = 0x3FE0_C152_382D_7366;
    let rp = |bits: u64| format!("{:.4}", solved(2.0, 1.0, f64::from_bits(bits)).rp.re);
    let grazing = f64::from_bits(0x3FF9_21FB_5444_2D17);
    let (_, through) = surface_fresnel_jones(1.5, 1.5, grazing).expect("an answer");
    let reflected = fresnel_dielectric(section2::cos(grazing), 1.5, 1.5);
    let name = |name: &str| {
        format!(
            "{:?}",
            from_format_name(name.as_bytes()).expect("a short name")
        )
    };
    let panics = |x: f64, lo: f64, hi: f64| std::panic::catch_unwind(|| x.clamp(lo, hi)).is_err();
    let right_angle = section2::PI / 2.0;
    vec![
        finding(
            "rp, 2 to 1, just below the critical angle",
            rp(critical - 1),
            "-1.0000",
        ),
        finding(
            "rp, 2 to 1, at the critical angle 0x3FE0C152382D7366",
            rp(critical),
            "1.0000",
        ),
        finding(
            "rp, 2 to 1, just above the critical angle",
            rp(critical + 1),
            "-1.0000",
        ),
        finding(
            "surface_fresnel_jones(1.5, 1.5, 0x3FF921FB54442D17), ts",
            through.m[0][0].re,
            "2",
        ),
        finding(
            "fresnel_dielectric there",
            format!("{}, {}", reflected.0, reflected.1),
            "1, 1",
        ),
        finding(
            "T_s, 1 to 1.5 at π/2",
            solved(1.0, 1.5, right_angle).transmittance_s,
            "NaN",
        ),
        finding(
            "sin(1e22), section 2",
            format!("{:.4}", section2::sin(1e22)),
            "0.8740",
        ),
        finding(
            "sin(1e22), platform",
            format!("{:.4}", 1e22_f64.sin()),
            "-0.8522",
        ),
        finding(
            "sin(100000), section 2",
            section2::sin(1e5),
            "0.03574879797201655",
        ),
        finding(
            "sin(100000), platform",
            1e5_f64.sin(),
            "0.03574879797201651",
        ),
        finding("sin(π), section 2", section2::sin(section2::PI), "0"),
        finding(
            "sin(π), platform",
            format!("{:.3e}", section2::PI.sin()),
            "1.225e-16",
        ),
        finding("cos(π/2), section 2", section2::cos(right_angle), "0"),
        finding(
            "cos(π/2), platform",
            format!("{:.3e}", right_angle.cos()),
            "6.123e-17",
        ),
        finding("exp(1), section 2", section2::exp(1.0), "2.718281828458697"),
        finding("exp(1), platform", 1_f64.exp(), "2.718281828459045"),
        finding(
            "asin(1), section 2",
            hex(section2::asin(1.0)),
            "0x3FF921FB54442D19",
        ),
        finding("asin(1), platform", hex(1_f64.asin()), "0x3FF921FB54442D18"),
        finding(
            "atan(1), section 2",
            hex(section2::atan(1.0)),
            "0x3FE921FB54442D19",
        ),
        finding("powi5(0.3), section 2", section2::powi5(0.3), "0.00243"),
        finding(
            "max(0, NaN), section 2",
            section2::max(0.0, f64::NAN),
            "NaN",
        ),
        finding("max(0, NaN), platform", 0_f64.max(f64::NAN), "0"),
        finding(
            "max(NaN, 0), both",
            format!("{}, {}", section2::max(f64::NAN, 0.0), f64::NAN.max(0.0)),
            "0, 0",
        ),
        finding(
            "max(0, -0), section 2",
            hex(section2::max(0.0, -0.0)),
            "0x8000000000000000",
        ),
        finding(
            "clamp(1, 2, 0), section 2",
            section2::clamp(1.0, 2.0, 0.0),
            "2",
        ),
        finding(
            "clamp(1, 2, 0) panics, platform",
            panics(1.0, 2.0, 0.0),
            "true",
        ),
        finding("MIRROR2", name("MIRROR2"), "Some(IdealAr)"),
        finding(
            "ANTIREFLECTION",
            name("ANTIREFLECTION"),
            "Some(HighReflectanceMirror)",
        ),
        finding("CUSTOM", name("CUSTOM"), "Some(IdealAr)"),
        finding("UNKNOWN", name("UNKNOWN"), "Some(IdealAr)"),
    ]
}

/// Every finding: the original's with section 2's meanings, the same with the platform's functions, and section 2's own.
pub fn findings() -> Vec<(&'static str, Vec<Finding>)> {
    vec![
        (
            "the original, section 2's functions",
            with_section_2::findings(),
        ),
        (
            "the original, the platform's functions",
            with_the_platform::findings(),
        ),
        ("section 2", of_section_2()),
    ]
}

/// Prints every finding. Returns whether each is as noted.
pub fn print() -> bool {
    let mut all = true;
    for (title, list) in findings() {
        println!("-- {title}");
        for Finding { call, gives, noted } in &list {
            println!(
                "{call}: {gives}{}",
                if gives == noted {
                    String::new()
                } else {
                    format!("  NOT AS NOTED: {noted}")
                }
            );
            all &= gives == noted;
        }
    }
    all
}
