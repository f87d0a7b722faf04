// The solver's operations beside the reference, with what is measured of each: see README.md, `measure`.

use crate::reference::thin_film::{mat_mul_2x2, CoatingResponse, Complex, ThinFilmLayer};
use crate::section2::{abs, clamp, cos_before_clamp, exp, max, powi2, sin_before_clamp, sqrt};

/// What is measured: its name, and whether the least or the largest is kept.
const EXTREMES: [(&str, bool); 38] = [
    ("entry of a layer's matrix, s", false),
    ("entry of a layer's matrix, p", false),
    ("entry of the product of matrices, s", false),
    ("entry of the product of matrices, p", false),
    ("phase thickness of a layer", false),
    ("B and C, s", false),
    ("B and C, p", false),
    ("numerator of r, s", false),
    ("numerator of r, p", false),
    ("|den|, s", false),
    ("|den|, p", false),
    ("|r_s|", false),
    ("|r_p|", false),
    ("|t_s|", false),
    ("|t_p|", false),
    ("|phase of r|", false),
    ("bare: |entry of a Jones matrix|", false),
    ("|entry of a Mueller matrix|", false),
    ("|R_s + T_s - 1|, coated", false),
    ("|R_p + T_p - 1|, coated", false),
    ("|sin| before its clamp", false),
    ("|cos| before its clamp", false),
    ("R_s before its clamp", false),
    ("R_p before its clamp", false),
    ("T_s before its clamp", false),
    ("T_p before its clamp", false),
    ("bare: R_s before its clamp", false),
    ("bare: R_p before its clamp", false),
    ("1 - |sin| of the substrate", true),
    ("|denominator|^2, n of a layer", true),
    ("|denominator|^2, cos in a layer", true),
    ("|denominator|^2, cos in the substrate", true),
    ("|denominator|^2, eta_s of a layer", true),
    ("|denominator|^2, eta_p of a layer", true),
    ("|den|^2, s", true),
    ("|den|^2, p", true),
    ("bare: denominator, s", true),
    ("bare: denominator, p", true),
];

#[derive(Clone, Copy)]
pub enum Of {
    LayerS,
    LayerP,
    ProductS,
    ProductP,
    Thickness,
    EndsS,
    EndsP,
    NumeratorS,
    NumeratorP,
    DenominatorS,
    DenominatorP,
    Rs,
    Rp,
    Ts,
    Tp,
    Phase,
    BareJones,
    Mueller,
    EnergyS,
    EnergyP,
    Sin,
    Cos,
    ReflectanceS,
    ReflectanceP,
    TransmittanceS,
    TransmittanceP,
    BareRs,
    BareRp,
    Slope,
    ByIndex,
    ByCos,
    ByCosSubstrate,
    ByEtaS,
    ByEtaP,
    ByDenS,
    ByDenP,
    BareDenS,
    BareDenP,
}

/// What is counted: of surfaces those so called, otherwise single operations.
const COUNTS: [&str; 14] = [
    "surfaces",
    "surfaces through the solver",
    "surfaces with an answer that is not finite",
    "surfaces with a power outside 0..1",
    "surfaces solved here otherwise than by the reference",
    "guard of a division (1e-28; bare: 1e-30) acted",
    "sin clamped",
    "cos clamped",
    "R_s or R_p clamped",
    "T_s clamped",
    "T_p clamped",
    "bare: R_s or R_p clamped",
    "max(cos, 1e-12) or max(.., 0) of a cosine acted",
    "light totally reflected",
];

#[derive(Clone, Copy)]
pub enum Count {
    Surfaces,
    Solved,
    NotFinite,
    NoPower,
    Different,
    Guard,
    Sin,
    Cos,
    Reflectance,
    TransmittanceS,
    TransmittanceP,
    BareReflectance,
    LeastCos,
    Total,
}

/// All that was seen.
pub struct Seen {
    /// The value and the surface that has it.
    extremes: Vec<(f64, String)>,
    /// Those that the surface in work has changed.
    changed: Vec<usize>,
    counts: Vec<u64>,
    pub findings: Vec<String>,
}

impl Default for Seen {
    fn default() -> Self {
        let start = |(_, least): &(&str, bool)| {
            let none = if *least { f64::INFINITY } else { -1.0 };
            (none, String::new())
        };
        Self {
            extremes: EXTREMES.iter().map(start).collect(),
            changed: Vec::new(),
            counts: vec![0; COUNTS.len()],
            findings: Vec::new(),
        }
    }
}

impl Seen {
    pub fn see(&mut self, what: Of, x: f64) {
        let i = what as usize;
        let old = self.extremes[i].0;
        if if EXTREMES[i].1 { x < old } else { x > old } {
            self.extremes[i].0 = x;
            self.changed.push(i);
        }
    }

    pub fn count(&mut self, what: Count, when: bool) {
        self.counts[what as usize] += u64::from(when);
    }

    pub fn counted(&self, what: Count) -> u64 {
        self.counts[what as usize]
    }

    pub fn extreme(&self, what: Of) -> f64 {
        self.extremes[what as usize].0
    }

    /// Ends a surface: what it changed is its own.
    pub fn settle(&mut self, describe: impl Fn() -> String) {
        for i in std::mem::take(&mut self.changed) {
            self.extremes[i].1 = describe();
        }
    }

    /// No finding: everything finite, every power in 0..1, and the reference's bits.
    pub fn sound(&self) -> bool {
        self.findings.is_empty()
    }

    pub fn table(&self) -> String {
        let mut text = String::new();
        for (name, count) in COUNTS.iter().zip(&self.counts) {
            text += &format!("{count:>12}  {name}\n");
        }
        for ((name, least), (value, at)) in EXTREMES.iter().zip(&self.extremes) {
            let which = if *least { "least" } else { "largest" };
            text += &format!("{value:>26e}  {which} {name}\n{:28}at {at}\n", "");
        }
        for finding in &self.findings {
            text += &format!("FINDING {finding}\n");
        }
        text
    }
}

// ---- section 2 and the Rust's operations, each measured

fn sin(x: f64, seen: &mut Seen) -> f64 {
    let v = sin_before_clamp(x);
    seen.see(Of::Sin, abs(v));
    seen.count(Count::Sin, abs(v) > 1.0);
    clamp(v, -1.0, 1.0)
}

fn cos(x: f64, seen: &mut Seen) -> f64 {
    let v = cos_before_clamp(x);
    seen.see(Of::Cos, abs(v));
    seen.count(Count::Cos, abs(v) > 1.0);
    clamp(v, -1.0, 1.0)
}

fn complex_exp(z: Complex, seen: &mut Seen) -> Complex {
    let size = exp(z.re);
    Complex::new(size * cos(z.im, seen), size * sin(z.im, seen))
}

/// The Rust's division, whose guard is looked at.
fn divide(a: Complex, b: Complex, by: Of, seen: &mut Seen) -> Complex {
    let denominator = b.norm_sq();
    seen.see(by, denominator);
    seen.count(Count::Guard, denominator < 1e-28);
    a / b
}

fn see_all(what: Of, list: &[Complex], seen: &mut Seen) {
    for z in list {
        seen.see(what, sqrt(z.norm_sq()));
    }
}

/// A power before and after its clamp.
fn power(x: f64, before: Of, clamped: Count, seen: &mut Seen) -> f64 {
    seen.see(before, x);
    seen.count(clamped, !(0.0..=1.0).contains(&x));
    clamp(x, 0.0, 1.0)
}

type Matrix = [[Complex; 2]; 2];

/// What a polarization needs besides its matrix: the admittances, and what its numbers are called.
struct Side {
    eta0: Complex,
    eta_sub: Complex,
    ends: Of,
    numerator: Of,
    denominator: Of,
    by: Of,
    amplitudes: [Of; 2],
    powers: [Of; 2],
    clamped: [Count; 2],
    energy: Of,
}

/// r, t, R, T of one polarization.
fn end(m: Matrix, side: &Side, seen: &mut Seen) -> (Complex, Complex, f64, f64) {
    let b = m[0][0] + m[0][1] * side.eta_sub;
    let c = m[1][0] + m[1][1] * side.eta_sub;
    let num = side.eta0 * b - c;
    let den = side.eta0 * b + c;
    let r = divide(num, den, side.by, seen);
    let t = side.eta0.scale(2.0) / den;
    see_all(side.ends, &[b, c], seen);
    see_all(side.numerator, &[num], seen);
    see_all(side.denominator, &[den], seen);
    see_all(side.amplitudes[0], &[r], seen);
    see_all(side.amplitudes[1], &[t], seen);
    let reflectance = power(r.norm_sq(), side.powers[0], side.clamped[0], seen);
    let ratio = side.eta_sub.re / side.eta0.re;
    let transmittance = power(ratio * t.norm_sq(), side.powers[1], side.clamped[1], seen);
    seen.see(side.energy, abs(reflectance + transmittance - 1.0));
    (r, t, reflectance, transmittance)
}

/// `evaluate_tmm_multilayer` once more, in the same order of operations.
pub fn solve(
    [n_incident, n_substrate, angle]: [f64; 3],
    wavelength: f64,
    layers: &[ThinFilmLayer],
    seen: &mut Seen,
) -> CoatingResponse {
    let sin_theta0 = sin(angle, seen);
    let cos_theta0 = cos(angle, seen);
    seen.count(Count::LeastCos, cos_theta0 <= 1e-12);
    let eta0_s = Complex::real(n_incident * cos_theta0);
    let eta0_p = Complex::real(n_incident / max(cos_theta0, 1e-12));
    let sin_sub = (n_incident * sin_theta0) / n_substrate;
    seen.see(Of::Slope, 1.0 - abs(sin_sub));
    seen.count(Count::Total, abs(sin_sub) > 1.0);
    let cos_sub = if abs(sin_sub) <= 1.0 {
        let square = 1.0 - sin_sub * sin_sub;
        seen.count(Count::LeastCos, square <= 0.0);
        Complex::real(sqrt(max(square, 0.0)))
    } else {
        Complex::new(0.0, -sqrt(sin_sub * sin_sub - 1.0))
    };
    let n_sub = Complex::real(n_substrate);
    let eta_sub_s = n_sub * cos_sub;
    let eta_sub_p = divide(n_sub, cos_sub, Of::ByCosSubstrate, seen);

    let one = Complex::real(1.0);
    let zero = Complex::zero();
    let mut ms = [[one, zero], [zero, one]];
    let mut mp = ms;
    for layer in layers {
        let n = Complex::new(layer.n, -layer.k);
        let sine = divide(Complex::real(n_incident * sin_theta0), n, Of::ByIndex, seen);
        let cosine = (one - sine * sine).sqrt();
        let eta_s = n * cosine;
        let eta_p = divide(n, cosine, Of::ByCos, seen);
        let factor = 2.0 * std::f64::consts::PI * layer.thickness_nm / wavelength;
        let delta = (n * cosine).scale(factor);
        see_all(Of::Thickness, &[delta], seen);
        let exp_pos = complex_exp(Complex::new(-delta.im, delta.re), seen);
        let exp_neg = complex_exp(Complex::new(delta.im, -delta.re), seen);
        let cos_delta = (exp_pos + exp_neg).scale(0.5);
        let sin_delta = (exp_pos - exp_neg) * Complex::new(0.0, -0.5);
        let i_sin = Complex::new(-sin_delta.im, sin_delta.re);
        let by_eta_s = divide(i_sin, eta_s, Of::ByEtaS, seen);
        let by_eta_p = divide(i_sin, eta_p, Of::ByEtaP, seen);
        let layer_s = [[cos_delta, by_eta_s], [i_sin * eta_s, cos_delta]];
        let layer_p = [[cos_delta, by_eta_p], [i_sin * eta_p, cos_delta]];
        see_all(Of::LayerS, layer_s.as_flattened(), seen);
        see_all(Of::LayerP, layer_p.as_flattened(), seen);
        ms = mat_mul_2x2(ms, layer_s);
        mp = mat_mul_2x2(mp, layer_p);
        see_all(Of::ProductS, ms.as_flattened(), seen);
        see_all(Of::ProductP, mp.as_flattened(), seen);
    }

    let s = Side {
        eta0: eta0_s,
        eta_sub: eta_sub_s,
        ends: Of::EndsS,
        numerator: Of::NumeratorS,
        denominator: Of::DenominatorS,
        by: Of::ByDenS,
        amplitudes: [Of::Rs, Of::Ts],
        powers: [Of::ReflectanceS, Of::TransmittanceS],
        clamped: [Count::Reflectance, Count::TransmittanceS],
        energy: Of::EnergyS,
    };
    let p = Side {
        eta0: eta0_p,
        eta_sub: eta_sub_p,
        ends: Of::EndsP,
        numerator: Of::NumeratorP,
        denominator: Of::DenominatorP,
        by: Of::ByDenP,
        amplitudes: [Of::Rp, Of::Tp],
        powers: [Of::ReflectanceP, Of::TransmittanceP],
        clamped: [Count::Reflectance, Count::TransmittanceP],
        energy: Of::EnergyP,
    };
    let (rs, ts, reflectance_s, transmittance_s) = end(ms, &s, seen);
    let (rp, tp, reflectance_p, transmittance_p) = end(mp, &p, seen);
    CoatingResponse {
        rs,
        rp,
        ts,
        tp,
        reflectance_s,
        reflectance_p,
        transmittance_s,
        transmittance_p,
        phase_rs_rad: rs.arg(),
        phase_rp_rad: rp.arg(),
    }
}

/// `fresnel_dielectric` once more: R_s and R_p.
pub fn bare([n1, n2, angle]: [f64; 3], seen: &mut Seen) -> [f64; 2] {
    let cos_i = clamp(cos(angle, seen), 0.0, 1.0);
    let eta = n1 / n2;
    let sin2_t = eta * eta * max(1.0 - cos_i * cos_i, 0.0);
    seen.count(Count::Total, sin2_t >= 1.0);
    if sin2_t >= 1.0 {
        return [1.0, 1.0];
    }
    let cos_t = sqrt(max(1.0 - sin2_t, 0.0));
    let mut quotient = |num: f64, den: f64, by: Of, before: Of| {
        seen.see(by, abs(den));
        seen.count(Count::Guard, abs(den) < 1e-30);
        if abs(den) < 1e-30 {
            return 0.0;
        }
        power(powi2(num / den), before, Count::BareReflectance, seen)
    };
    let (a, b) = (n1 * cos_i, n2 * cos_t);
    let rs = quotient(a - b, a + b, Of::BareDenS, Of::BareRs);
    let (a, b) = (n2 * cos_i, n1 * cos_t);
    [rs, quotient(a - b, a + b, Of::BareDenP, Of::BareRp)]
}
