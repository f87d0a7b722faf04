//! Light through a train of coated windows: the C library, built or linked by build.rs, and its calls. `raw` has them as they are;
//! the functions of this crate take slices and give a refusal as an error. A `Sheet` is made of numbers:
//!
//! ```
//! use dihkelu_sys::{run, Coating, Sheet, Surface};
//!
//! let window = Surface { coating: Coating::Mgf2, n_incident: 1.0, n_substrate: 1.52, angle_rad: 0.5, ..Surface::default() };
//! let sheet = Sheet { wavelength_nm: 550.0, s: 0.5, p: 0.5, surfaces: vec![window] };
//! let mut list = [0.0; 2];
//! assert_eq!(run(&sheet.to_bytes()?, &mut list)?, 1);
//! assert!(list[0] > 0.48 && list[0] < 0.5);
//! # Ok::<(), dihkelu_sys::Refusal>(())
//! ```

pub mod raw;
mod safe;
mod sheet;
pub use safe::*;
pub use sheet::*;
