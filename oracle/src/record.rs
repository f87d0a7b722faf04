// Records: the words of arguments and results, written and read (the format is in README.md).

use crate::reference::polarization::{JonesMatrix, JonesVector, MuellerMatrix, StokesVector};
use crate::reference::thin_film::{CoatingResponse, Complex, ThinFilmLayer};
use crate::section2::clamp;
use std::io::{self, Read};

/// The one NaN of results.
pub const NAN: u64 = 0x7FF8_0000_0000_0000;

/// An f64's bits, all NaNs as one.
pub fn bits(x: f64) -> u64 {
    if x.is_nan() {
        NAN
    } else {
        x.to_bits()
    }
}

/// What stays in the glass (document 02, slip 2): (1 - R) - T, clamped to 0..1; a NaN stays NaN.
pub fn absorptance(reflectance: f64, transmittance: f64) -> f64 {
    clamp((1.0 - reflectance) - transmittance, 0.0, 1.0)
}

/// A response's numbers in their order: the Rust's, and at the end the two of slip 2.
pub fn numbers(r: &CoatingResponse) -> [f64; 16] {
    let z = [r.rs, r.rp, r.ts, r.tp].map(|z| [z.re, z.im]);
    let z = z.as_flattened();
    let mut list = [0.0; 16];
    list[..8].copy_from_slice(z);
    list[8..].copy_from_slice(&[
        r.reflectance_s,
        r.reflectance_p,
        r.transmittance_s,
        r.transmittance_p,
        r.phase_rs_rad,
        r.phase_rp_rad,
        absorptance(r.reflectance_s, r.transmittance_s),
        absorptance(r.reflectance_p, r.transmittance_p),
    ]);
    list
}

/// Result words under construction.
#[derive(Default)]
pub struct Words(pub Vec<u64>);

impl Words {
    pub fn int(&mut self, n: u64) {
        self.0.push(n);
    }

    pub fn float(&mut self, x: f64) {
        self.0.push(bits(x));
    }

    pub fn floats(&mut self, list: &[f64]) {
        list.iter().for_each(|x| self.float(*x));
    }

    pub fn complex(&mut self, z: Complex) {
        self.floats(&[z.re, z.im]);
    }

    /// The length, then the bytes, padded with zeros to whole words.
    pub fn bytes(&mut self, bytes: &[u8]) {
        self.int(bytes.len() as u64);
        self.0.extend(packed(bytes));
    }

    pub fn layers(&mut self, layers: &[ThinFilmLayer]) {
        self.int(layers.len() as u64);
        for layer in layers {
            self.floats(&[layer.n, layer.k, layer.thickness_nm]);
        }
    }

    pub fn response(&mut self, r: &CoatingResponse) {
        self.floats(&numbers(r));
    }

    pub fn jones_vector(&mut self, v: JonesVector) {
        self.complex(v.ex);
        self.complex(v.ey);
    }

    pub fn stokes(&mut self, s: StokesVector) {
        self.floats(&[s.s0, s.s1, s.s2, s.s3]);
    }

    pub fn matrix(&mut self, m: [[Complex; 2]; 2]) {
        m.iter().flatten().for_each(|z| self.complex(*z));
    }

    pub fn mueller(&mut self, m: MuellerMatrix) {
        m.m.iter().for_each(|row| self.floats(row));
    }

    pub fn refusal(&mut self, number: u64, place: u64) {
        self.0.extend([number, place]);
    }
}

/// Bytes as words, high byte first, padded with zeros.
pub fn packed(bytes: &[u8]) -> Vec<u64> {
    let word = |chunk: &[u8]| {
        let mut whole = [0; 8];
        whole[..chunk.len()].copy_from_slice(chunk);
        u64::from_be_bytes(whole)
    };
    bytes.chunks(8).map(word).collect()
}

/// Argument words being read.
pub struct Arguments<'a> {
    words: &'a [u64],
    at: usize,
}

impl<'a> Arguments<'a> {
    pub fn new(words: &'a [u64]) -> Self {
        Self { words, at: 0 }
    }

    pub fn is_done(&self) -> bool {
        self.at == self.words.len()
    }

    pub fn int(&mut self) -> u64 {
        let word = self.words[self.at];
        self.at += 1;
        word
    }

    pub fn float(&mut self) -> f64 {
        f64::from_bits(self.int())
    }

    pub fn floats<const N: usize>(&mut self) -> [f64; N] {
        std::array::from_fn(|_| self.float())
    }

    pub fn complex(&mut self) -> Complex {
        let [re, im] = self.floats();
        Complex { re, im }
    }

    pub fn bytes(&mut self) -> Vec<u8> {
        let length = self.int() as usize;
        let count = length.div_ceil(8);
        let words = &self.words[self.at..self.at + count];
        self.at += count;
        let mut bytes: Vec<u8> = words.iter().flat_map(|word| word.to_be_bytes()).collect();
        bytes.truncate(length);
        bytes
    }

    pub fn layers(&mut self) -> Vec<ThinFilmLayer> {
        let layer = |[n, k, thickness_nm]: [f64; 3]| ThinFilmLayer { n, k, thickness_nm };
        (0..self.int()).map(|_| layer(self.floats())).collect()
    }

    /// The Rust's response; it has no place for the last two numbers.
    pub fn response(&mut self) -> CoatingResponse {
        let response = CoatingResponse {
            rs: self.complex(),
            rp: self.complex(),
            ts: self.complex(),
            tp: self.complex(),
            reflectance_s: self.float(),
            reflectance_p: self.float(),
            transmittance_s: self.float(),
            transmittance_p: self.float(),
            phase_rs_rad: self.float(),
            phase_rp_rad: self.float(),
        };
        let _: [f64; 2] = self.floats();
        response
    }

    pub fn jones_vector(&mut self) -> JonesVector {
        let [ex, ey] = [self.complex(), self.complex()];
        JonesVector { ex, ey }
    }

    pub fn stokes(&mut self) -> StokesVector {
        let [s0, s1, s2, s3] = self.floats();
        StokesVector { s0, s1, s2, s3 }
    }

    pub fn matrix(&mut self) -> [[Complex; 2]; 2] {
        std::array::from_fn(|_| std::array::from_fn(|_| self.complex()))
    }

    pub fn jones(&mut self) -> JonesMatrix {
        JonesMatrix { m: self.matrix() }
    }

    pub fn mueller(&mut self) -> MuellerMatrix {
        MuellerMatrix {
            m: std::array::from_fn(|_| self.floats()),
        }
    }
}

/// One record.
#[derive(Debug, PartialEq)]
pub struct Record {
    pub function: u16,
    pub arguments: Vec<u64>,
    pub results: Vec<u64>,
}

impl Record {
    pub fn write(&self, out: &mut Vec<u8>) {
        let count = |words: &[u64]| u16::try_from(words.len()).expect("too many words");
        let (arguments, results) = (count(&self.arguments), count(&self.results));
        for half in [self.function, arguments, results, 0] {
            out.extend(half.to_be_bytes());
        }
        for word in self.arguments.iter().chain(&self.results) {
            out.extend(word.to_be_bytes());
        }
    }

    /// The next record, or none at the end of the input.
    pub fn read(input: &mut impl Read) -> io::Result<Option<Self>> {
        let mut header = Vec::new();
        input.by_ref().take(8).read_to_end(&mut header)?;
        if header.is_empty() {
            return Ok(None);
        }
        let broken = || io::Error::new(io::ErrorKind::InvalidData, "broken record");
        if header.len() != 8 || header[6..] != [0, 0] {
            return Err(broken());
        }
        let half = |at: usize| u16::from_be_bytes([header[at], header[at + 1]]);
        let mut words = |count: u16| -> io::Result<Vec<u64>> {
            let mut bytes = vec![0; usize::from(count) * 8];
            input.read_exact(&mut bytes)?;
            let word = |chunk: &[u8]| u64::from_be_bytes(chunk.try_into().expect("8 bytes"));
            Ok(bytes.chunks(8).map(word).collect())
        };
        Ok(Some(Self {
            function: half(0),
            arguments: words(half(2))?,
            results: words(half(4))?,
        }))
    }
}
