// Named example sheets: every coating in both directions, no surfaces and 64, layers, and each refusal at several places.

use crate::sheet_cases::from_words;
use crate::sheets::{
    example, gilded, largest, largest_of_two, mixed, plain, retuned, varied, Face, Plan,
};

fn face(payload: u32, numbers: [f64; 3], layers: &[[f64; 3]]) -> Face {
    Face {
        payload,
        numbers,
        layers: plain(layers),
        retune: None,
    }
}

fn plan(surfaces: Vec<Face>) -> Plan {
    Plan {
        edition: 1,
        beam: [632.8, 0.75, 0.5],
        surfaces,
    }
}

const COATINGS: [&str; 8] = [
    "bare",
    "ideal_ar",
    "mgf2",
    "broadband_ar",
    "mirror",
    "custom",
    "ideal_beamsplitter",
    "ideal_mirror",
];

/// About BK7's.
const GLASS: [f64; 4] = [1.5046, 0.0042, 0.0, 80.0];

const LAYERS: [[f64; 3]; 3] = [[1.38, 0.0, 99.6], [2.3, 0.0, 60.0], [1.46, -0.0, 1234.5]];

/// Each example's name and bytes.
pub fn examples() -> Vec<(String, Vec<u8>)> {
    let mut list = vec![("example".to_string(), example().bytes())];
    list.extend(admitted());
    list.extend(refused());
    list
}

fn admitted() -> Vec<(String, Vec<u8>)> {
    let mut list = Vec::new();
    for (code, coating) in COATINGS.iter().enumerate() {
        for (bit, way) in ["transmitted", "reflected"].iter().enumerate() {
            let layers = if code == 5 { &LAYERS[..] } else { &[] };
            let payload = (2 * code + bit) as u32;
            let sheet = plan(vec![face(payload, [1.0, 1.52, 0.6], layers)]);
            list.push((format!("{coating}_{way}"), sheet.bytes()));
        }
    }
    let mut add = |name: &str, sheet: Plan| list.push((name.to_string(), sheet.bytes()));
    add("no_surfaces", plan(Vec::new()));
    add("three_surfaces", varied());
    add(
        "custom_no_layers",
        plan(vec![face(10, [1.0, 1.52, 0.3], &[])]),
    );
    add(
        "custom_16_layers",
        plan(vec![face(10, [1.0, 1.52, 0.3], &[LAYERS[0]; 16])]),
    );
    add(
        "custom_from_the_denser_side",
        plan(vec![face(11, [1.52, 1.0, 0.3], &LAYERS)]),
    );
    add(
        "custom_at_equal_indices",
        plan(vec![face(10, [1.52, 1.52, 0.3], &LAYERS)]),
    );
    let all = (0..16).map(|payload| face(payload, [1.0, 1.52, 0.4], &[]));
    add("every_payload", plan(all.collect()));
    add(
        "64_bare_surfaces",
        plan(vec![face(0, [1.0, 1.52, 0.2], &[]); 64]),
    );
    add("64_surfaces_of_16_layers", largest());
    add("64_surfaces_of_16_glasses", largest_of_two());
    add("edition_2", of_two(varied()));
    add("glasses_and_layers", mixed());
    add("metal_films", gilded());
    add("retuned_twice", retuned());
    add("retuned_before_the_first", {
        let mut sheet = of_two(plan(vec![face(10, [1.0, 1.52, 0.3], &LAYERS)]));
        sheet.surfaces[0].layers[1] = GLASS.to_vec();
        sheet.surfaces[0].retune = Some(1064.0);
        sheet
    });
    add("glasses_from_the_denser_side", {
        let mut sheet = of_two(plan(vec![face(11, [1.52, 1.0, 0.3], &LAYERS)]));
        sheet.surfaces[0].layers[1] = GLASS.to_vec();
        sheet
    });
    let mut dark = plan(vec![face(0, [1.0, 1.52, 0.2], &[])]);
    dark.beam = [100.0, -0.0, 0.0];
    add("no_power", dark);
    add(
        "many_turns",
        plan(vec![face(
            4,
            [1.0, 1.52, 1e6 * std::f64::consts::TAU + 0.4],
            &[],
        )]),
    );
    list
}

/// The same sheet in edition 2.
fn of_two(mut sheet: Plan) -> Plan {
    sheet.edition = 2;
    sheet
}

fn refused() -> Vec<(String, Vec<u8>)> {
    let mut list = Vec::new();
    let mut add = |name: &str, bytes: Vec<u8>| list.push((format!("refused_{name}"), bytes));
    let whole = example().bytes();
    let words = example().write().words;
    let with = |place: usize, word: u32| {
        let mut words = words.clone();
        words[place] = word;
        from_words(&words)
    };
    let longest = largest().bytes();
    // 4
    add("4_nothing", Vec::new());
    add("4_35_bytes", whole[..35].to_vec());
    add("4_a_byte_short", whole[..63].to_vec());
    add("4_a_byte_more", [&whole[..], &[0]].concat());
    add("4_30504_bytes", [&longest[..], &[0; 4]].concat());
    let longest_of_two = largest_of_two().bytes();
    add(
        "4_39460_bytes_of_edition_1",
        [&whole[..4], &longest_of_two[4..]].concat(),
    );
    add("4_39464_bytes", [&longest_of_two[..], &[0; 4]].concat());
    // 5
    add("5_edition_0", with(0, 0x1000_0000));
    add("5_edition_3", with(0, 0x1000_0003));
    let glass = |edition: u32, glass: [f64; 4]| {
        let mut sheet = plan(vec![face(10, [1.0, 1.52, 0.3], &LAYERS)]);
        sheet.edition = edition;
        sheet.surfaces[0].layers[1] = glass.to_vec();
        sheet.bytes()
    };
    add("5_glass_in_edition_1", glass(1, GLASS));
    add("5_glass_past_the_end", glass(2, GLASS)[..120].to_vec());
    add("5_17_glasses", {
        let mut sheet = plan(vec![face(10, [1.0, 1.52, 0.3], &[])]);
        sheet.edition = 2;
        sheet.surfaces[0].layers = vec![GLASS.to_vec(); 17];
        sheet.bytes()
    });
    add("5_retuned_in_edition_1", {
        let mut sheet = varied();
        sheet.surfaces[1].retune = Some(632.8);
        sheet.bytes()
    });
    add("5_retuned_at_the_end", {
        let mut words = of_two(example()).write().words;
        words.splice(15..15, [0x7000_0000, 0x4080_0000, 0]);
        from_words(&words)
    });
    add("5_retuned_twice_at_once", {
        let mut words = of_two(example()).write().words;
        words.splice(
            8..8,
            [0x7000_0000, 0x4080_0000, 0, 0x7000_0000, 0x4080_0000, 0],
        );
        from_words(&words)
    });
    add("5_no_beam", with(1, 0x3000_0000));
    add("5_payload_16", with(8, 0x3000_0010));
    add("5_layer_on_bare", {
        let sheet = plan(vec![face(0, [1.0, 1.52, 0.3], &[LAYERS[0]])]);
        sheet.bytes()
    });
    add(
        "5_17_layers",
        plan(vec![face(10, [1.0, 1.52, 0.3], &[LAYERS[0]; 17])]).bytes(),
    );
    add(
        "5_65_surfaces",
        plan(vec![face(0, [1.0, 1.52, 0.3], &[]); 65]).bytes(),
    );
    add("5_count_of_surfaces", with(15, 0x5000_0002));
    add("5_end_missing", whole[..60].to_vec());
    add("5_words_past_the_end", whole[..56].to_vec());
    add("5_word_after_end", [&whole[..], &[0x50, 0, 0, 1]].concat());
    add("5_before_6", {
        let mut words = words.clone();
        words[2..4].copy_from_slice(&[0x4058_C000, 0]);
        words[15] = 0x5000_0000;
        from_words(&words)
    });
    // 6
    let beam = |beam: [f64; 3]| {
        let mut sheet = example();
        sheet.beam = beam;
        sheet.bytes()
    };
    add("6_wavelength_99", beam([99.0, 0.5, 0.5]));
    add("6_power_over_1", beam([500.0, 0.5, 1.0000000000000002]));
    add("6_power_nan", beam([500.0, f64::NAN, 0.5]));
    add(
        "6_index_under_1",
        plan(vec![face(0, [0.9, 1.52, 0.0], &[])]).bytes(),
    );
    add(
        "6_angle_infinite",
        plan(vec![face(0, [1.0, 1.52, f64::INFINITY], &[])]).bytes(),
    );
    add(
        "6_too_steep",
        plan(vec![face(0, [1.0, 1.52, 1.4], &[])]).bytes(),
    );
    add(
        "6_bends_too_far",
        plan(vec![face(0, [1.52, 1.0, 0.7], &[])]).bytes(),
    );
    add(
        "6_preset_layer",
        plan(vec![
            face(10, [1.0, 1.52, 0.3], &LAYERS),
            face(4, [2.5, 4.0, 0.7], &[]),
        ])
        .bytes(),
    );
    add(
        "6_layer_absorbs",
        plan(vec![face(
            10,
            [1.0, 1.52, 0.3],
            &[LAYERS[0], [1.38, 1e-300, 10.0]],
        )])
        .bytes(),
    );
    add(
        "6_layer_too_thick",
        plan(vec![
            face(0, [1.0, 1.52, 0.3], &[]),
            face(11, [1.0, 1.52, 0.3], &[[1.38, 0.0, 100_001.0]]),
        ])
        .bytes(),
    );
    add("6_glass_index_over_4", glass(2, [1.5, 0.5, 0.3, 80.0]));
    add(
        "6_glass_not_finite",
        glass(2, [1.5, f64::INFINITY, 0.0, 80.0]),
    );
    add("6_glass_too_thick", glass(2, [1.5, 0.0042, 0.0, 100_001.0]));
    let gold = [0.26, 6.97, 20.0];
    add(
        "6_metal_at_an_angle",
        plan(vec![face(10, [1.0, 1.52, 0.001], &[gold])]).bytes(),
    );
    add(
        "6_metal_of_five_layers",
        plan(vec![face(11, [1.0, 1.52, 0.0], &[gold; 5])]).bytes(),
    );
    add(
        "6_metal_too_thick",
        plan(vec![face(
            11,
            [1.0, 1.52, 0.0],
            &[LAYERS[0], [0.26, 6.97, 250.0]],
        )])
        .bytes(),
    );
    add("6_retuned_to_99", {
        let mut sheet = retuned();
        sheet.surfaces[1].retune = Some(99.0);
        sheet.bytes()
    });
    add("6_glass_fails_at_its_retune", {
        let mut sheet = retuned();
        sheet.surfaces[2].retune = Some(100.0);
        sheet.surfaces[2].layers[0] = vec![1.45, 0.035, 0.0, 10.0];
        sheet.bytes()
    });
    list
}
