//! The library's C entry points: the one place that knows their form.

use crate::record::{fields, fields_of_the_rust};

/// What `prbmuf` reads of an hour: the deciles of the layers E, F1, F2 and Es.
#[repr(C)]
#[derive(Clone, Copy)]
pub struct MufHour {
    pub sigl: [f32; 4],
    pub sigu: [f32; 4],
}

/// Defines a record of columns, in the field order of the Rust's record of the same name, and
/// the way from one to the other. It has no padding and takes any bits, so that it can be
/// filled with words and compared by them.
macro_rules! record {
    (
        $(#[$meta:meta])*
        $name:ident, columns of $n:literal: $($($column:ident)+: $type:ty),+;
        counts: $($count:ident)*
    ) => {
        $(#[$meta])*
        #[repr(C)]
        #[derive(Clone, Copy)]
        pub struct $name {
            $($(pub $column: [$type; $n],)+)+
            $(pub $count: usize,)*
        }

        impl $name {
            pub const WORDS: usize = {
                let columns = [$($(stringify!($column)),+),+].len();
                let counts: &[&str] = &[$(stringify!($count)),*];
                $n * columns + counts.len() * size_of::<usize>() / 4
            };

            pub fn from_words(words: [u32; Self::WORDS]) -> Self {
                // Sound: of one size (else it does not compile), and any bits will do.
                unsafe { std::mem::transmute(words) }
            }

            pub fn words(&self) -> [u32; Self::WORDS] {
                // Sound: of one size (else it does not compile), so there is no padding.
                unsafe { std::mem::transmute(*self) }
            }
        }

        #[cfg(oracle)]
        impl From<$name> for crate::oracle::$name {
            fn from(ours: $name) -> Self {
                Self { $($($column: ours.$column,)+)+ $($count: ours.$count,)* }
            }
        }

        #[cfg(oracle)]
        impl From<crate::oracle::$name> for $name {
            fn from(rust: crate::oracle::$name) -> Self {
                Self { $($($column: rust.$column,)+)+ $($count: rust.$count,)* }
            }
        }
    };
}

record! {
    /// The seven mode slots of one hop.
    Zon, columns of 7:
        abps crel eff fldst grlos hn hp prob rely rgain sigpow sn spro tgain timed tloss b fslos
        adv obf: f32,
        nmode: i32,
        tllow tlhgh: f32;
    counts:
}

record! {
    /// The mode list of one frequency.
    AllModes, columns of 20:
        abps crel fldst hn hp prob rely rgain sigpow sn spro tgain timed tloss b fslos grlos adv
        obf: f32,
        nmode: i32,
        tllow tlhgh eff: f32;
    counts: nrel nmmod
}

fields_of_the_rust! {
    /// What a walk leaves. The Rust's has the columns of its losses besides, and no kinds.
    Reflectrix {
        delfx hpflx htflx gdflx fvflx afflx: [f32; 45],
        imode: [u32; 45];
        apart kind: [u32; 45];
        dskpkm delskp hpskp htskp dmaxkm fvskp: f32,
        iskp: u32,
        delpen: [f32; 3],
        iaftxr rows_this_call: usize,
    }
}

fields_of_the_rust! {
    /// The six ray slots of one hop length.
    HopModes {
        delmod hpmod htmod fvmod: [f32; 6],
        itmod: [u32; 6],
        afmod: [f32; 6],
    }
}

/// `accumulate`'s answer.
#[repr(C)]
#[derive(Clone, Copy)]
pub struct Accumulated {
    pub refusal: u32,
    pub modes: AllModes,
}

/// `findf`'s answer.
#[repr(C)]
#[derive(Clone, Copy)]
pub struct Walked {
    pub refusal: u32,
    pub looks: u32,
    pub rfx: Reflectrix,
}

/// The numbers of a reflectrix beside its columns.
#[repr(C)]
#[derive(Clone, Copy)]
pub struct Figures {
    pub dskpkm: f32,
    pub delskp: f32,
    pub hpskp: f32,
    pub htskp: f32,
    pub dmaxkm: f32,
    pub fvskp: f32,
    pub iskp: u32,
    pub delpen: [f32; 3],
    pub iaftxr: usize,
    pub rows_this_call: usize,
}

impl From<&Reflectrix> for Figures {
    #[rustfmt::skip]
    fn from(rfx: &Reflectrix) -> Self {
        let &Reflectrix {
            dskpkm, delskp, hpskp, htskp, dmaxkm, fvskp, iskp, delpen, iaftxr, rows_this_call, ..
        } = rfx;
        Figures {
            dskpkm, delskp, hpskp, htskp, dmaxkm, fvskp, iskp, delpen, iaftxr, rows_this_call,
        }
    }
}

impl Reflectrix {
    #[rustfmt::skip]
    pub fn set_figures(&mut self, figures: Figures) {
        let Figures {
            dskpkm, delskp, hpskp, htskp, dmaxkm, fvskp, iskp, delpen, iaftxr, rows_this_call,
        } = figures;
        (self.dskpkm, self.delskp, self.hpskp, self.htskp) = (dskpkm, delskp, hpskp, htskp);
        (self.dmaxkm, self.fvskp, self.iskp, self.delpen) = (dmaxkm, fvskp, iskp, delpen);
        (self.iaftxr, self.rows_this_call) = (iaftxr, rows_this_call);
    }
}

/// `findf`'s answer where the columns are lent.
#[repr(C)]
#[derive(Clone, Copy)]
pub struct Outcome {
    pub refusal: u32,
    pub looks: u32,
    pub figures: Figures,
}

/// The tables of one point; `ifob` angle by angle.
#[repr(C)]
#[derive(Clone, Copy)]
pub struct Tables {
    pub fvert: [f32; 30],
    pub hprim: [f32; 30],
    pub htrue: [f32; 30],
    pub afac: [f32; 30],
    pub ifob: [i32; 1200],
}

impl From<&FindfJob> for Tables {
    fn from(job: &FindfJob) -> Self {
        let FindfJob { fvert, hprim, htrue, afac, ifob, .. } = *job;
        Tables { fvert, hprim, htrue, afac, ifob }
    }
}

/// `findf`'s answer where the reflectrix is lent.
#[repr(C)]
#[derive(Clone, Copy)]
pub struct InPlace {
    pub refusal: u32,
    pub looks: u32,
}

/// `findf`'s arguments beside the reflectrix; `ifob` angle by angle.
#[derive(Clone, Copy)]
pub struct FindfJob {
    pub k: usize,
    pub nang: usize,
    pub freq: f32,
    pub amind: f32,
    pub fi: [[f32; 3]; 5],
    pub fvert: [f32; 30],
    pub hprim: [f32; 30],
    pub htrue: [f32; 30],
    pub afac: [f32; 30],
    pub ifob: [i32; 1200],
}

/// `fdist`'s answer.
#[repr(C)]
#[derive(Clone, Copy)]
pub struct Searched {
    pub refusal: u32,
    pub pairs: u32,
    pub rays: u32,
    pub m: HopModes,
}

/// `fdist`'s arguments beside the slots.
#[derive(Clone, Copy)]
pub struct FdistJob {
    pub rfx: Reflectrix,
    pub ghop: f32,
    pub amind: f32,
    pub freq: f32,
}

fields! {
    /// A slot of `esmod`: -1 in all four where it is empty.
    EsHop { b hn hp timed: f32 }
}

/// `esmod`'s answer.
#[repr(C)]
#[derive(Clone, Copy)]
pub struct EsModes {
    pub refusal: u32,
    pub slot4: EsHop,
    pub slot5: EsHop,
}

/// `esmod`'s arguments.
#[derive(Clone, Copy, Debug)]
pub struct EsJob {
    pub km: usize,
    pub fs: [[f32; 3]; 5],
    pub hs: [f32; 5],
    pub gcd: f32,
    pub gcdkm: f32,
    pub amind: f32,
    pub freq: f32,
    pub fsdead: f32,
}

// Safe to call: the functions take any numbers, and of the memory lent they read and write the
// array or the number alone, during the call alone.
unsafe extern "C" {
    #[link_name = "ray_sqrt"]
    pub safe fn sqrt(x: f32) -> f32;

    #[link_name = "ray_fnorml"]
    pub safe fn fnorml(ypx: f32) -> f32;

    /// 0 with the probability in `out`, or 13 with `out` as it was.
    #[link_name = "ray_prbmuf"]
    pub safe fn prbmuf(
        hour: &MufHour,
        fmhz: f32,
        fgo: f32,
        fset: f32,
        il: usize,
        out: &mut f32,
    ) -> u32;

    /// On a refusal, 11 or 12, the list is as it was.
    #[link_name = "ray_accumulate"]
    pub safe fn accumulate(m: AllModes, zon: Zon, ist: usize, lst: usize) -> Accumulated;

    #[link_name = "ray_reset"]
    pub safe fn reset(m: AllModes) -> AllModes;

    /// On a refusal the reflectrix is as it was, and looks 0.
    #[link_name = "ray_findf"]
    pub safe fn findf(
        rfx: Reflectrix,
        k: usize,
        nang: usize,
        freq: f32,
        amind: f32,
        fi: &[[f32; 3]; 5],
        fvert: &[f32; 30],
        hprim: &[f32; 30],
        htrue: &[f32; 30],
        afac: &[f32; 30],
        ifob: &[i32; 1200],
    ) -> Walked;

    /// The same by the form that takes a `&mut`, over a local that it is lent.
    #[link_name = "ray_findf_by_reference"]
    pub safe fn findf_by_reference(
        rfx: Reflectrix,
        k: usize,
        nang: usize,
        freq: f32,
        amind: f32,
        fi: &[[f32; 3]; 5],
        fvert: &[f32; 30],
        hprim: &[f32; 30],
        htrue: &[f32; 30],
        afac: &[f32; 30],
        ifob: &[i32; 1200],
    ) -> Walked;

    /// The same into a lent reflectrix.
    #[link_name = "ray_findf_over"]
    pub safe fn findf_over(
        rfx: &mut Reflectrix,
        k: usize,
        nang: usize,
        freq: f32,
        amind: f32,
        fi: &[[f32; 3]; 5],
        tables: &Tables,
    ) -> InPlace;

    /// The same into lent columns, with the figures by value.
    #[link_name = "ray_findf_into"]
    pub safe fn findf_into(
        delfx: &mut [f32; 45],
        hpflx: &mut [f32; 45],
        htflx: &mut [f32; 45],
        gdflx: &mut [f32; 45],
        fvflx: &mut [f32; 45],
        afflx: &mut [f32; 45],
        imode: &mut [u32; 45],
        kind: &mut [u32; 45],
        figures: Figures,
        k: usize,
        nang: usize,
        freq: f32,
        amind: f32,
        fi: &[[f32; 3]; 5],
        fvert: &[f32; 30],
        hprim: &[f32; 30],
        htrue: &[f32; 30],
        afac: &[f32; 30],
        ifob: &[i32; 1200],
    ) -> Outcome;

    /// On a refusal the slots are as they were, and the counts 0.
    #[link_name = "ray_fdist"]
    pub safe fn fdist(m: HopModes, rfx: Reflectrix, ghop: f32, amind: f32, freq: f32) -> Searched;

    /// The same by the form that takes a `&mut` and a `&`, over locals that it is lent.
    #[link_name = "ray_fdist_by_reference"]
    pub safe fn fdist_by_reference(
        m: HopModes,
        rfx: Reflectrix,
        ghop: f32,
        amind: f32,
        freq: f32,
    ) -> Searched;

    /// On a refusal both slots are empty.
    #[link_name = "ray_esmod"]
    pub safe fn esmod(
        km: usize,
        fs: &[[f32; 3]; 5],
        hs: &[f32; 5],
        gcd: f32,
        gcdkm: f32,
        amind: f32,
        freq: f32,
        fsdead: f32,
    ) -> EsModes;

    #[link_name = "ray_sin"]
    pub safe fn sin(x: f32) -> f32;

    #[link_name = "ray_cos"]
    pub safe fn cos(x: f32) -> f32;

    #[link_name = "ray_asin"]
    pub safe fn asin(x: f32) -> f32;

    #[link_name = "ray_acos"]
    pub safe fn acos(x: f32) -> f32;

    #[link_name = "ray_atan"]
    pub safe fn atan(x: f32) -> f32;
}

// A slice is its address, then its length.
unsafe extern "C" {
    fn ray_job(job: *const u8, job_len: usize, answer: *mut u8, answer_len: usize) -> u32;
}

/// The job call: 0 with the answer in `answer`, or the number of the first limit broken, and
/// `answer` as it was.
pub fn job(job: &[u8], answer: &mut [u8]) -> u32 {
    // Sound: of the memory lent the call reads the job and writes the answer, and keeps neither.
    unsafe { ray_job(job.as_ptr(), job.len(), answer.as_mut_ptr(), answer.len()) }
}
