//! The angle functions that the library uses itself, in radians (docs/ANGLES.md has their recipes
//! and bounds).
//!
//! ```
//! use ray::angles;
//!
//! assert_eq!(angles::cos(0.0), 1.0);
//! assert!((angles::asin(angles::sin(0.5)) - 0.5).abs() < 1e-6);
//! assert!(angles::sin(4.5).is_nan());
//! ```

use crate::call;

/// The sine of -4 to 4; NaN of all else.
pub fn sin(x: f32) -> f32 {
    call::ray_sin(x)
}

/// The cosine of -4 to 4; NaN of all else.
pub fn cos(x: f32) -> f32 {
    call::ray_cos(x)
}

/// The arcsine of -1 to 1; NaN of all else.
pub fn asin(x: f32) -> f32 {
    call::ray_asin(x)
}

/// The arccosine of -1 to 1; NaN of all else.
pub fn acos(x: f32) -> f32 {
    call::ray_acos(x)
}

/// The arctangent of any number; NaN of NaN.
pub fn atan(x: f32) -> f32 {
    call::ray_atan(x)
}
