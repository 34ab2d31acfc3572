/*
 * ray.h: the angles at which a shortwave antenna reaches a listener by one hop.
 *
 * For C99 and C++, on x86-64 (the library is for no other processor). Link libraycore.a, which asks
 * for memcpy and memset alone. docs/JOB.md says more of the bytes; examples/rays.c is a whole program.
 *
 * What the caller must guarantee, for every call:
 *  - Buffers. job and answer are memory of the given lengths, do not overlap, and nobody else writes
 *    them during the call. Any alignment will do. No pointer is NULL, not even with a length of 0.
 *    fs and hs of ray_esmod are 15 and 5 floats, also where fewer points count.
 *  - Floating-point mode. The usual one: rounding to nearest, subnormals neither flushed nor taken as
 *    zero, every exception masked. ray_default_fp_mode() tests it. In another mode the answer may be
 *    another one, and an unmasked exception would be raised.
 *  - Stack. RAY_STACK_BYTES are free.
 * The calls keep nothing, allocate nothing, and may run in several threads at once.
 */
#ifndef RAY_H
#define RAY_H

#include <stddef.h>
#include <stdint.h>
#include <string.h>
#if defined(__x86_64__) || defined(_M_X64)
#include <xmmintrin.h>
#endif

#ifdef __cplusplus
extern "C" {
#endif

/* ---- Entry points ---------------------------------------------------------------------------- */

/*
 * Works out a job. Returns 0 and writes all RAY_ANSWER_BYTES of the answer; or returns the number of
 * the first limit that the job breaks (RAY_REFUSED_...) and writes nothing. Ends on every input:
 * job_bytes and answer_bytes may be any lengths, and the bytes any bytes.
 */
uint32_t ray_job(const uint8_t *job, size_t job_bytes, uint8_t *answer, size_t answer_bytes);

/* A ray by sporadic E, a slot of ray_esmod's answer. All four are -1 where the slot is empty. */
struct ray_es_hop {
    float b;     /* deg, the take-off angle: at or above amind */
    float hn;    /* the number of hops: 1 or 2 */
    float hp;    /* km, the height of the layer: hs of the point that governs */
    float timed; /* ms, the delay over the whole path */
};

struct ray_es_modes {
    uint32_t refusal; /* 0, or the number of the first limit broken: both slots are then empty */
    struct ray_es_hop slot4;
    struct ray_es_hop slot5;
};

/*
 * The rays by sporadic E of a path: slot 4 has the least number of hops by which the layer can reach so
 * far, slot 5 one more, and neither more than two. Geometry alone: no losses.
 *   km      how many points of the path count, from the first on
 *   fs      MHz, the critical frequency of sporadic E: lower decile, median and upper decile of point 0,
 *           then of points 1 to 4, 15 numbers (of a float fs[5][3], hand over fs[0])
 *   hs      km, the height of the layer at each of the 5 points
 *   gcd     radians, the path as an angle at the earth's centre
 *   gcdkm   km, the path's length; it is not compared with gcd
 *   amind   deg, the minimum take-off angle
 *   freq    MHz, the frequency
 *   fsdead  MHz, at or below it there is no ray
 * The point that governs is the first of those counted whose median is the smallest; where that is 0
 * there is no ray. A hop below amind uses up its slot and leaves it empty: slot 5 may hold a ray where
 * slot 4 holds none. Refused by RAY_REFUSED_FREQ, else RAY_REFUSED_AMIND, else RAY_REFUSED_ES. Points
 * that do not count may hold anything. Ends on every input.
 */
struct ray_es_modes ray_esmod(size_t km, const float *fs, const float *hs, float gcd, float gcdkm, float amind, float freq, float fsdead);

/*
 * The angle functions that the calls use, in radians: sine and cosine of -4 to 4, arcsine and
 * arccosine of -1 to 1, arctangent of any number. NaN elsewhere and for NaN. docs/ANGLES.md has their
 * recipes and bounds.
 */
float ray_sin(float x);
float ray_cos(float x);
float ray_asin(float x);
float ray_acos(float x);
float ray_atan(float x);

/* ---- Sizes ----------------------------------------------------------------------------------- */

#define RAY_JOB_BYTES 5360    /* a job: 1,340 words of 4 bytes, least byte first */
#define RAY_ANSWER_BYTES 1640 /* an answer: 410 such words */
#define RAY_STACK_BYTES 16384 /* ray_job uses some 8 kB of stack, as compiled; a test measures it */

#define RAY_POINTS 5        /* points of a job, and at most of ray_esmod */
#define RAY_POINT_NUMBERS 3 /* critical frequencies of a point: E, F1, F2; of ray_esmod, deciles and median */
#define RAY_TABLE_ROWS 30   /* rows of fvert, hprim, htrue, afac; and of ifob for each angle */
#define RAY_ENTRIES 1200    /* entries of ifob: 40 angles of 30 rows */
#define RAY_LAYERS 3        /* layers of an answer: E, F1, F2 */
#define RAY_COLUMN_ROWS 45  /* rows of an answer's columns, of which the first `rows` are written */
#define RAY_SLOTS 6         /* slots for rays */

/* ---- Places: the number of a word, counted from 0. Its first byte is at 4 times that. ----------- */

/* The job. u: unsigned; i: signed; f: IEEE 754 binary32. */
#define RAY_JOB_K 0       /* u  the point whose critical frequencies count, from 0 */
#define RAY_JOB_NANG 1    /* u  how many of the 40 table angles are used */
#define RAY_JOB_FREQ 2    /* f  MHz, the frequency */
#define RAY_JOB_AMIND 3   /* f  deg, the minimum take-off angle */
#define RAY_JOB_GHOP 4    /* f  radians, the asked hop: its length is this times RAY_EARTH_KM */
#define RAY_JOB_FI 5      /* f  MHz, critical frequencies: 5 points of E, F1 (0: no F1), F2 */
#define RAY_JOB_FVERT 20  /* f  MHz, 30 vertical frequencies: rows 1-10 E, 11-20 F1, 21-30 F2 */
#define RAY_JOB_HPRIM 50  /* f  km, 30 virtual heights */
#define RAY_JOB_HTRUE 80  /* f  km, 30 true heights */
#define RAY_JOB_AFAC 110  /* f  30 absorption factors */
#define RAY_JOB_IFOB 140  /* i  kHz, the oblique table: 30 frequencies for each of 40 angles */

/* The answer. */
#define RAY_ANSWER_ROWS 0     /* u  rows of the reflectrix that were written, 0 to 44 */
#define RAY_ANSWER_LOOKS 1    /* u  looks at the oblique table, at most nang + 28 */
#define RAY_ANSWER_PAIRS 2    /* u  pairs of rows tried for a ray, at most 44 */
#define RAY_ANSWER_DELPEN 3   /* f  deg, penetration angles of E, F1, F2: 0 always pierced, 89.9 never, 90 not met */
#define RAY_ANSWER_DSKPKM 6   /* f  km, the skip distance: the least hop below 10000, else 10000; -1 where F2 is always pierced */
#define RAY_ANSWER_DELSKP 7   /* f  deg, the take-off angle of the row that has it; here and below 0 where none has */
#define RAY_ANSWER_HPSKP 8    /* f  km, its virtual height */
#define RAY_ANSWER_HTSKP 9    /* f  km, its true height */
#define RAY_ANSWER_DMAXKM 10  /* f  km, the farthest hop at or above amind; not above 0 where there is none */
#define RAY_ANSWER_FVSKP 11   /* f  MHz, the vertical frequency of the skip distance's row */
#define RAY_ANSWER_ISKP 12    /* u  the layer that the walk was in at that row */
#define RAY_ANSWER_IAFTXR 13  /* u  the number of the last row written: in a job's answer the same as rows */
#define RAY_ANSWER_DELFX 14   /* f  deg, 45 take-off angles */
#define RAY_ANSWER_HPFLX 59   /* f  km, 45 virtual heights */
#define RAY_ANSWER_HTFLX 104  /* f  km, 45 true heights */
#define RAY_ANSWER_GDFLX 149  /* f  km, 45 hop lengths */
#define RAY_ANSWER_FVFLX 194  /* f  MHz, 45 vertical frequencies */
#define RAY_ANSWER_AFFLX 239  /* f  45 absorption factors */
#define RAY_ANSWER_IMODE 284  /* u  45 layers (RAY_LAYER_...) */
#define RAY_ANSWER_KIND 329   /* u  45 kinds of rows (RAY_KIND_...) */
#define RAY_ANSWER_DELMOD 374 /* f  deg, 6 take-off angles of slots */
#define RAY_ANSWER_HPMOD 380  /* f  km, 6 virtual heights; minus the height where the slot is too low */
#define RAY_ANSWER_HTMOD 386  /* f  km, 6 true heights */
#define RAY_ANSWER_FVMOD 392  /* f  MHz, 6 vertical frequencies */
#define RAY_ANSWER_ITMOD 398  /* u  6 layers; RAY_LAYER_EMPTY tells an empty slot */
#define RAY_ANSWER_AFMOD 404  /* f  6 absorption factors */

#define RAY_LAYER_E 1
#define RAY_LAYER_F1 2
#define RAY_LAYER_F2 3
#define RAY_LAYER_EMPTY 5

/*
 * How a row came about: read off a row of the tables, whose entry at that angle is the frequency, or
 * because the layer's lowest entry is not below it; between two rows of the tables; a cusp, the layer's
 * last row at its penetration angle; after a cusp, the next layer's first row 0.001 deg above it.
 */
#define RAY_KIND_UNWRITTEN 0 /* of a row beyond `rows` */
#define RAY_KIND_EXACT 1
#define RAY_KIND_INTERPOLATED 2
#define RAY_KIND_CUSP 3
#define RAY_KIND_AFTER_CUSP 4

#define RAY_EARTH_KM 6370.0f /* the radius of the earth: km for each radian of a hop */

/* ---- Ranges, ends included. NaN is within none. ------------------------------------------------ */

#define RAY_K_MAX 4
#define RAY_NANG_MAX 40
#define RAY_FREQ_MIN 2.0f
#define RAY_FREQ_MAX 30.0f
#define RAY_AMIND_MIN 0.0f
#define RAY_AMIND_MAX 90.0f
#define RAY_GHOP_MIN 0.0f
#define RAY_GHOP_MAX 4.0f
#define RAY_FI_F1_MIN 0.0f /* at point k; E's critical frequency and other points may be anything */
#define RAY_FI_F1_MAX 100.0f
#define RAY_FI_F2_MIN 0.1f
#define RAY_FI_F2_MAX 100.0f
#define RAY_FVERT_MIN 0.0f
#define RAY_FVERT_MAX 100.0f
#define RAY_HPRIM_MIN 0.0f
#define RAY_HPRIM_MAX 10000.0f
#define RAY_HTRUE_MIN 0.0f
#define RAY_HTRUE_MAX 2000.0f
#define RAY_AFAC_MIN -1000000.0f
#define RAY_AFAC_MAX 1000000.0f
#define RAY_IFOB_MIN 0
#define RAY_IFOB_MAX 99999

/* Of ray_esmod, besides RAY_FREQ and RAY_AMIND. */
#define RAY_KM_MIN 1
#define RAY_KM_MAX 5
#define RAY_HS_MIN 80.0f /* at each point that counts */
#define RAY_HS_MAX 200.0f
#define RAY_FS_MIN 0.0f /* each of the three at each point that counts, and fsdead */
#define RAY_FS_MAX 100.0f
#define RAY_GCD_MIN 0.001f
#define RAY_GCD_MAX 3.2f
#define RAY_GCDKM_MIN 0.0f
#define RAY_GCDKM_MAX 20100.0f

/* ---- Refusals -------------------------------------------------------------------------------- */

#define RAY_REFUSED_JOB 1
#define RAY_REFUSED_ANSWER 2
#define RAY_REFUSED_K 3
#define RAY_REFUSED_NANG 4
#define RAY_REFUSED_FREQ 5
#define RAY_REFUSED_AMIND 6
#define RAY_REFUSED_GHOP 7
#define RAY_REFUSED_FI 8
#define RAY_REFUSED_TABLE 9
#define RAY_REFUSED_IFOB 10
#define RAY_REFUSED_ES 14 /* of ray_esmod alone */

/* The sentence of a number that ray_job or ray_esmod gave. */
static inline const char *ray_refusal_text(uint32_t number)
{
    switch (number) {
    case 0: return "the job is accepted";
    case RAY_REFUSED_JOB: return "the job is not 5360 bytes long";
    case RAY_REFUSED_ANSWER: return "the answer is not 1640 bytes long";
    case RAY_REFUSED_K: return "the point k is not within 0 to 4";
    case RAY_REFUSED_NANG: return "the number of table angles, nang, is not within 0 to 40";
    case RAY_REFUSED_FREQ: return "the frequency, freq, is not within 2 to 30 MHz";
    case RAY_REFUSED_AMIND: return "the minimum angle, amind, is not within 0 to 90 deg";
    case RAY_REFUSED_GHOP: return "the asked hop, ghop, is not within 0 to 4 radians";
    case RAY_REFUSED_FI: return "a critical frequency of the point is not within its range";
    case RAY_REFUSED_TABLE: return "a value of the tables is not within its range";
    case RAY_REFUSED_IFOB: return "an entry of the oblique table, ifob, is not within 0 to 99999 kHz";
    case RAY_REFUSED_ES: return "km, fs, hs, gcd, gcdkm or fsdead is not within its range";
    default: return "no limit has this number";
    }
}

/* ---- Words: by bytes, so that they are right on any machine and at any address ----------------- */

static inline uint32_t ray_get_u32(const uint8_t *bytes, size_t place)
{
    const uint8_t *b = bytes + 4 * place;
    return (uint32_t)b[0] | (uint32_t)b[1] << 8 | (uint32_t)b[2] << 16 | (uint32_t)b[3] << 24;
}

static inline float ray_get_f32(const uint8_t *bytes, size_t place)
{
    uint32_t word = ray_get_u32(bytes, place);
    float x;
    memcpy(&x, &word, sizeof x);
    return x;
}

static inline void ray_put_u32(uint8_t *bytes, size_t place, uint32_t word)
{
    uint8_t *b = bytes + 4 * place;
    b[0] = (uint8_t)(word & 0xff);
    b[1] = (uint8_t)(word >> 8 & 0xff);
    b[2] = (uint8_t)(word >> 16 & 0xff);
    b[3] = (uint8_t)(word >> 24 & 0xff);
}

/* An entry of ifob: the conversion to unsigned is that of two's complement. */
static inline void ray_put_i32(uint8_t *bytes, size_t place, int32_t entry)
{
    ray_put_u32(bytes, place, (uint32_t)entry);
}

static inline void ray_put_f32(uint8_t *bytes, size_t place, float x)
{
    uint32_t word;
    memcpy(&word, &x, sizeof word);
    ray_put_u32(bytes, place, word);
}

/*
 * Whether slot 0 to 5 of the answer to the job holds a ray. Layer 5 alone tells an empty slot: its
 * angle is 0, which reaches a minimum of 0. Another slot holds a ray where its angle reaches amind;
 * else one was found there that is too low.
 */
static inline int ray_slot_is_ray(const uint8_t *job, const uint8_t *answer, size_t slot)
{
    return ray_get_u32(answer, RAY_ANSWER_ITMOD + slot) != RAY_LAYER_EMPTY
        && ray_get_f32(answer, RAY_ANSWER_DELMOD + slot) >= ray_get_f32(job, RAY_JOB_AMIND);
}

/* Whether a slot of ray_esmod's answer holds a ray. */
static inline int ray_es_slot_is_ray(struct ray_es_hop slot)
{
    return slot.hn > 0.0f;
}

/* ---- Floating-point mode --------------------------------------------------------------------- */

#if defined(__x86_64__) || defined(_M_X64)
/*
 * Whether this thread's floating-point mode is the usual one: rounding to nearest, FTZ and DAZ off,
 * all exceptions masked.
 *
 * It reads the register that the library's instructions obey, MXCSR, through the intrinsic that C and
 * C++ share, and leaves out its six flags of past exceptions. Sums on volatile floats would show
 * rounding and flushing, but no unmasked exception, and would raise flags; <fenv.h> knows neither FTZ
 * nor DAZ, and asks for a pragma that compilers ignore.
 */
static inline int ray_default_fp_mode(void)
{
    return (_mm_getcsr() & 0xffc0u) == 0x1f80u;
}
#endif

#ifdef __cplusplus
}
#endif

#endif
