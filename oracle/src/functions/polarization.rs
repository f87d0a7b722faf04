// Group polarization: Jones and Stokes vectors, Jones and Mueller matrices, the two surface functions.

use crate::arguments::Arg::{self, *};
use crate::functions::Function;
use crate::record::{Arguments, Words};
use crate::reference::polarization::{
    surface_coating_jones, surface_fresnel_jones, JonesMatrix, JonesVector, MuellerMatrix,
    StokesVector,
};

const RESPONSE: &[Arg] = &[
    Part, Part, Part, Part, Part, Part, Part, Part, Power, Power, Power, Power, Angle, Angle,
    Power, Power,
];
const MATRIX_AND_STOKES: &[Arg] = &[
    Part, Part, Part, Part, Part, Part, Part, Part, Part, Part, Part, Part, Part, Part, Part, Part,
    Power, Power, Power, Power,
];

pub fn table() -> Vec<Function> {
    type Call = fn(&mut Arguments, &mut Words);
    let function = |number, name, args: &'static [Arg], call: Call| Function {
        number,
        group: "polarization",
        name,
        args,
        weight: match number {
            _ if args.is_empty() => 0,
            107 | 112..=116 | 121..=124 => 2,
            128 | 136 => 4,
            _ => 1,
        },
        call,
    };
    let stokes = |number, name, call: Call| function(number, name, &[Power; 4], call);
    vec![
        function(100, "JonesVector::new", &[Part; 4], |a, r| {
            r.jones_vector(JonesVector::new(a.complex(), a.complex()));
        }),
        function(101, "JonesVector::linear_horizontal", &[], |_, r| {
            r.jones_vector(JonesVector::linear_horizontal());
        }),
        function(102, "JonesVector::linear_vertical", &[], |_, r| {
            r.jones_vector(JonesVector::linear_vertical());
        }),
        function(103, "JonesVector::linear_45", &[], |_, r| {
            r.jones_vector(JonesVector::linear_45());
        }),
        function(104, "JonesVector::circular_right", &[], |_, r| {
            r.jones_vector(JonesVector::circular_right());
        }),
        function(105, "JonesVector::circular_left", &[], |_, r| {
            r.jones_vector(JonesVector::circular_left());
        }),
        function(106, "JonesVector::intensity", &[Part; 4], |a, r| {
            r.float(a.jones_vector().intensity());
        }),
        function(107, "JonesVector::normalize", &[Part; 4], |a, r| {
            r.jones_vector(a.jones_vector().normalize());
        }),
        function(108, "JonesVector::to_stokes", &[Part; 4], |a, r| {
            r.stokes(a.jones_vector().to_stokes());
        }),
        stokes(110, "StokesVector::new", |a, r| {
            r.stokes(StokesVector::new(
                a.float(),
                a.float(),
                a.float(),
                a.float(),
            ));
        }),
        function(111, "StokesVector::unpolarized", &[Power], |a, r| {
            r.stokes(StokesVector::unpolarized(a.float()));
        }),
        stokes(112, "StokesVector::degree_of_polarization", |a, r| {
            r.float(a.stokes().degree_of_polarization());
        }),
        stokes(
            113,
            "StokesVector::degree_of_linear_polarization",
            |a, r| {
                r.float(a.stokes().degree_of_linear_polarization());
            },
        ),
        stokes(
            114,
            "StokesVector::degree_of_circular_polarization",
            |a, r| {
                r.float(a.stokes().degree_of_circular_polarization());
            },
        ),
        stokes(115, "StokesVector::orientation_angle_rad", |a, r| {
            r.float(a.stokes().orientation_angle_rad());
        }),
        stokes(116, "StokesVector::ellipticity_angle_rad", |a, r| {
            r.float(a.stokes().ellipticity_angle_rad());
        }),
        function(120, "JonesMatrix::identity", &[], |_, r| {
            r.matrix(JonesMatrix::identity().m);
        }),
        function(121, "JonesMatrix::linear_polarizer", &[Angle], |a, r| {
            r.matrix(JonesMatrix::linear_polarizer(a.float()).m);
        }),
        function(122, "JonesMatrix::retarder", &[Angle, Angle], |a, r| {
            r.matrix(JonesMatrix::retarder(a.float(), a.float()).m);
        }),
        function(123, "JonesMatrix::quarter_wave_plate", &[Angle], |a, r| {
            r.matrix(JonesMatrix::quarter_wave_plate(a.float()).m);
        }),
        function(124, "JonesMatrix::half_wave_plate", &[Angle], |a, r| {
            r.matrix(JonesMatrix::half_wave_plate(a.float()).m);
        }),
        function(125, "JonesMatrix::diattenuator", &[Part; 4], |a, r| {
            r.matrix(JonesMatrix::diattenuator(a.complex(), a.complex()).m);
        }),
        function(126, "JonesMatrix::apply", &[Part; 12], |a, r| {
            let matrix = a.jones();
            r.jones_vector(matrix.apply(a.jones_vector()));
        }),
        function(127, "JonesMatrix::mul", &[Part; 16], |a, r| {
            let (left, right) = (a.jones(), a.jones());
            r.matrix(left.mul(&right).m);
        }),
        function(128, "JonesMatrix::to_mueller", &[Part; 8], |a, r| {
            r.mueller(a.jones().to_mueller());
        }),
        function(130, "MuellerMatrix::identity", &[], |_, r| {
            r.mueller(MuellerMatrix::identity());
        }),
        function(131, "MuellerMatrix::apply", MATRIX_AND_STOKES, |a, r| {
            let matrix = a.mueller();
            r.stokes(matrix.apply(a.stokes()));
        }),
        function(135, "surface_coating_jones", RESPONSE, |a, r| {
            let (reflection, transmission) = surface_coating_jones(&a.response());
            r.matrix(reflection.m);
            r.matrix(transmission.m);
        }),
        function(
            136,
            "surface_fresnel_jones",
            &[Index, Index, Angle],
            |a, r| match surface_fresnel_jones(a.float(), a.float(), a.float()) {
                Err(_) => r.refusal(1, 0),
                Ok((reflection, transmission)) => {
                    r.int(0);
                    r.matrix(reflection.m);
                    r.matrix(transmission.m);
                }
            },
        ),
    ]
}
