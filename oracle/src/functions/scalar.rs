// Groups ieee and elementary: functions of plain f64s; group fresnel.

use crate::arguments::Arg::{self, *};
use crate::functions::Function;
use crate::record::{Arguments, Words};
use crate::reference::fresnel::{fresnel_dielectric, fresnel_unpolarized, schlick_approx};
use crate::section2;

type Call = fn(&mut Arguments, &mut Words);

pub fn table() -> Vec<Function> {
    let ieee = |number, name, args: &'static [Arg], call: Call| Function {
        number,
        group: "ieee",
        name,
        args,
        weight: 4,
        call,
    };
    let elementary = |number, name, args: &'static [Arg], call: Call| Function {
        number,
        group: "elementary",
        name,
        args,
        weight: 8,
        call,
    };
    vec![
        ieee(1, "abs", &[Any], |a, r| r.float(section2::abs(a.float()))),
        ieee(2, "max", &[Any, Any], |a, r| {
            r.float(section2::max(a.float(), a.float()));
        }),
        ieee(3, "clamp", &[Any, Any, Any], |a, r| {
            r.float(section2::clamp(a.float(), a.float(), a.float()));
        }),
        ieee(4, "is_finite", &[Any], |a, r| {
            r.int(u64::from(a.float().is_finite()));
        }),
        ieee(5, "powi2", &[Any], |a, r| {
            r.float(section2::powi2(a.float()));
        }),
        ieee(6, "powi5", &[Any], |a, r| {
            r.float(section2::powi5(a.float()));
        }),
        ieee(7, "from_words", &[Word, Word], |a, r| {
            let (high, low) = (a.int(), a.int());
            r.float(f64::from_bits(high << 32 | low));
        }),
        ieee(8, "rem", &[Any, Divisor], |a, r| {
            r.float(section2::rem(a.float(), a.float()));
        }),
        ieee(9, "sqrt", &[Square], |a, r| {
            r.float(section2::sqrt(a.float()))
        }),
        elementary(20, "sin", &[Angle], |a, r| {
            r.float(section2::sin(a.float()))
        }),
        elementary(21, "cos", &[Angle], |a, r| {
            r.float(section2::cos(a.float()))
        }),
        elementary(22, "exp", &[Exponent], |a, r| {
            r.float(section2::exp(a.float()));
        }),
        elementary(23, "atan", &[Any], |a, r| {
            r.float(section2::atan(a.float()))
        }),
        elementary(24, "asin", &[Sine], |a, r| {
            r.float(section2::asin(a.float()));
        }),
        elementary(25, "atan2", &[Any, Any], |a, r| {
            r.float(section2::atan2(a.float(), a.float()));
        }),
    ]
}

/// Group fresnel.
pub fn fresnel() -> Vec<Function> {
    let fresnel = |number, name, call: Call| Function {
        number,
        group: "fresnel",
        name,
        args: &[Cosine, Index, Index],
        weight: 4,
        call,
    };
    vec![
        fresnel(80, "fresnel_dielectric", |a, r| {
            let (rs, rp) = fresnel_dielectric(a.float(), a.float(), a.float());
            r.floats(&[rs, rp]);
        }),
        fresnel(81, "fresnel_unpolarized", |a, r| {
            let (reflected, transmitted) = fresnel_unpolarized(a.float(), a.float(), a.float());
            r.floats(&[reflected, transmitted]);
        }),
        fresnel(82, "schlick_approx", |a, r| {
            r.float(schlick_approx(a.float(), a.float(), a.float()));
        }),
    ]
}
