// Group complex: `Complex` and its methods.

use crate::arguments::Arg::{self, *};
use crate::functions::Function;
use crate::record::{Arguments, Words};
use crate::reference::thin_film::Complex;

pub fn table() -> Vec<Function> {
    type Call = fn(&mut Arguments, &mut Words);
    let complex = |number, name, args: &'static [Arg], call: Call| Function {
        number,
        group: "complex",
        name,
        args,
        weight: if args.is_empty() { 0 } else { 3 },
        call,
    };
    vec![
        complex(40, "Complex::new", &[Any, Any], |a, r| {
            r.complex(Complex::new(a.float(), a.float()));
        }),
        complex(41, "Complex::real", &[Any], |a, r| {
            r.complex(Complex::real(a.float()));
        }),
        complex(42, "Complex::zero", &[], |_, r| r.complex(Complex::zero())),
        complex(43, "Complex::scale", &[Part, Part, Any], |a, r| {
            r.complex(a.complex().scale(a.float()));
        }),
        complex(44, "Complex::norm_sq", &[Part, Part], |a, r| {
            r.float(a.complex().norm_sq());
        }),
        complex(45, "Complex::norm", &[Part, Part], |a, r| {
            r.float(a.complex().norm());
        }),
        complex(46, "Complex::arg", &[Part, Part], |a, r| {
            r.float(a.complex().arg());
        }),
        complex(47, "Complex::exp", &[Exponent, Angle], |a, r| {
            r.complex(a.complex().exp());
        }),
        complex(48, "Complex::sqrt", &[Part, Part], |a, r| {
            r.complex(a.complex().sqrt());
        }),
        complex(49, "Complex::add", &[Part; 4], |a, r| {
            r.complex(a.complex() + a.complex());
        }),
        complex(50, "Complex::sub", &[Part; 4], |a, r| {
            r.complex(a.complex() - a.complex());
        }),
        complex(51, "Complex::mul", &[Part; 4], |a, r| {
            r.complex(a.complex() * a.complex());
        }),
        complex(52, "Complex::div", &[Part; 4], |a, r| {
            r.complex(a.complex() / a.complex());
        }),
    ]
}
