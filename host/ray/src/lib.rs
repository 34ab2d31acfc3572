//! The angles at which a shortwave antenna reaches a listener by one hop through the ionosphere: a
//! safe wrapper of the proved ray core.
//!
//! A [`Job`] holds ionogram tables, a frequency and the hop that is asked for. [`Job::solve`] gives
//! an [`Answer`], with the reflectrix row by row and up to six rays; or a [`Refusal`], where the job
//! breaks a limit.
//!
//! ```
//! use ray::{Job, Layer};
//!
//! let noon = Job::from_bytes(include_bytes!("../../../jobs/noon.job"))?;
//! let answer = noon.solve()?;
//! assert_eq!(answer.rows().len(), 25);
//! let angles: Vec<String> = answer.rays().map(|ray| format!("{:.3}", ray.angle)).collect();
//! assert_eq!(angles, ["3.914", "9.050", "11.798", "14.061", "18.242"]);
//! assert_eq!(answer.rays().last().unwrap().layer, Layer::F2);
//! # Ok::<(), ray::Refusal>(())
//! ```
//!
//! The same tables serve another frequency or another hop:
//!
//! ```
//! # use ray::Job;
//! # let noon = Job::from_bytes(include_bytes!("../../../jobs/noon.job"))?;
//! let job = noon.to_builder().freq(11.5).hop_km(1200.0).build()?;
//! assert!(job.solve()?.rays().len() > 0);
//!
//! let wrong = noon.to_builder().freq(31.5).build().unwrap_err();
//! assert_eq!(wrong.to_string(), "freq is 31.5, not within 2 to 30 MHz");
//! # Ok::<(), Box<dyn std::error::Error>>(())
//! ```
//!
//! [`Es`] asks for the rays by sporadic E of a path.
//!
//! Names are those of the job's words (docs/JOB.md). The library allocates nothing, never panics and
//! always ends; `ray_job` takes some 8 kB of stack. The floating-point mode has to be the usual one,
//! which Rust asks for anyway. For x86-64 alone.
#![deny(missing_docs)]
#![deny(unsafe_code)]

pub mod angles;
mod answer;
mod builder;
mod call;
mod es;
mod job;
pub mod layout;
mod refusal;

pub use answer::{Answer, Kind, Layer, Ray, Row, Skip, Slot};
pub use builder::{Field, JobBuilder, OutOfRange, Range};
pub use es::{Es, EsHop, EsModes, EsPoint};
pub use job::{Job, Oblique, Table};
pub use refusal::Refusal;

/// The radius of the earth in km: what a radian of a hop is long.
pub const EARTH_KM: f32 = 6370.0;
