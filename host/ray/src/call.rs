//! The library's C entry points: the one module with unsafe code.
#![allow(unsafe_code)]

/// A slot of sporadic E: -1 in all four where it is empty.
#[repr(C)]
#[derive(Clone, Copy)]
pub struct EsHop {
    pub b: f32,
    pub hn: f32,
    pub hp: f32,
    pub timed: f32,
}

/// The answer of `ray_esmod`.
#[repr(C)]
pub struct EsModes {
    pub refusal: u32,
    pub slot4: EsHop,
    pub slot5: EsHop,
}

/// The form of include/ray.h.
mod c {
    use super::EsModes;

    // Safe where nothing but numbers goes in, or points that are read during the call alone.
    unsafe extern "C" {
        pub fn ray_job(
            job: *const u8,
            job_bytes: usize,
            answer: *mut u8,
            answer_bytes: usize,
        ) -> u32;
        pub safe fn ray_esmod(
            km: usize,
            fs: &[[f32; 3]; 5],
            hs: &[f32; 5],
            gcd: f32,
            gcdkm: f32,
            amind: f32,
            freq: f32,
            fsdead: f32,
        ) -> EsModes;
        pub safe fn ray_sin(x: f32) -> f32;
        pub safe fn ray_cos(x: f32) -> f32;
        pub safe fn ray_asin(x: f32) -> f32;
        pub safe fn ray_acos(x: f32) -> f32;
        pub safe fn ray_atan(x: f32) -> f32;
    }
}

pub use c::{ray_acos, ray_asin, ray_atan, ray_cos, ray_esmod, ray_sin};

/// The number of the first limit that the job breaks, and the answer as it was; else 0, and the
/// answer written.
pub fn job(job: &[u8], answer: &mut [u8]) -> u32 {
    // Sound: of the memory lent the call reads the job and writes the answer, and keeps neither.
    // The two do not overlap, since one of them is borrowed to be written.
    unsafe { c::ray_job(job.as_ptr(), job.len(), answer.as_mut_ptr(), answer.len()) }
}
