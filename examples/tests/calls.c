/* The header's words, and the calls on buffers that are as long as said and no longer, so that
 * valgrind sees a byte read or written beside them:  calls JOB..
 * Each JOB must be accepted. */
#include "ray.h"

#include <math.h>
#include <stdio.h>
#include <stdlib.h>

static int failures = 0;

static void check(int holds, const char *what)
{
    if (!holds) {
        fprintf(stderr, "calls: not so: %s\n", what);
        failures++;
    }
}
#define CHECK(e) check((e) ? 1 : 0, #e)

static void words(void)
{
    uint8_t b[12] = {0};
    ray_put_u32(b, 1, 0x04030201u);
    CHECK(b[3] == 0 && b[4] == 1 && b[5] == 2 && b[6] == 3 && b[7] == 4 && b[8] == 0);
    CHECK(ray_get_u32(b, 1) == 0x04030201u);
    ray_put_f32(b, 2, -1.0f);
    CHECK(ray_get_u32(b, 2) == 0xbf800000u && ray_get_f32(b, 2) == -1.0f);
    ray_put_i32(b, 0, -2);
    CHECK(ray_get_u32(b, 0) == 0xfffffffeu);
}

static void angles(void)
{
    /* Where the answer is known by docs/ANGLES.md: zeros, the ends, NaN outside. */
    CHECK(ray_sin(0.0f) == 0.0f && ray_cos(0.0f) == 1.0f && ray_acos(1.0f) == 0.0f);
    CHECK(fabsf(ray_atan(1.0f) - 0.7853982f) < 1e-6f && fabsf(ray_asin(1.0f) - 1.5707964f) < 1e-6f);
    CHECK(isnan(ray_sin(4.5f)) && isnan(ray_cos(-4.5f)) && isnan(ray_asin(1.5f)) && isnan(ray_acos(-1.5f)));
}

/* A copy that has no byte more. */
static uint8_t *exactly(const uint8_t *bytes, size_t length)
{
    uint8_t *copy = (uint8_t *)malloc(length);
    if (copy == NULL)
        exit(2);
    memcpy(copy, bytes, length);
    return copy;
}

/* The number of a call with these lengths, which must leave the answer alone where it refuses. */
static uint32_t called(const uint8_t *job, size_t job_bytes, size_t answer_bytes)
{
    uint8_t *lent = exactly(job, job_bytes);
    uint8_t *answer = (uint8_t *)malloc(answer_bytes);
    uint32_t number;
    size_t i;
    if (answer == NULL)
        exit(2);
    memset(answer, 0xa5, answer_bytes);
    number = ray_job(lent, job_bytes, answer, answer_bytes);
    CHECK(memcmp(lent, job, job_bytes) == 0);
    for (i = 0; number != 0 && i < answer_bytes; i++)
        CHECK(answer[i] == 0xa5);
    free(lent);
    free(answer);
    return number;
}

/* The call on a word changed to what it may not be. */
static void refused(const uint8_t *job, size_t place, uint32_t word, uint32_t number)
{
    uint8_t *copy = exactly(job, RAY_JOB_BYTES);
    ray_put_u32(copy, place, word);
    CHECK(called(copy, RAY_JOB_BYTES, RAY_ANSWER_BYTES) == number);
    free(copy);
}

static void accepted(const char *name)
{
    uint8_t job[RAY_JOB_BYTES + 1];
    uint8_t *answer = (uint8_t *)malloc(RAY_ANSWER_BYTES), *lent;
    FILE *file = fopen(name, "rb");
    uint32_t sum = 0;
    size_t i;
    if (answer == NULL || file == NULL || fread(job, 1, sizeof job, file) != RAY_JOB_BYTES) {
        fprintf(stderr, "calls: %s is no job\n", name);
        exit(2);
    }
    fclose(file);
    job[RAY_JOB_BYTES] = 0;
    lent = exactly(job, RAY_JOB_BYTES);
    /* The answer is memory that nobody has written; each of its bytes is then read. */
    CHECK(ray_job(lent, RAY_JOB_BYTES, answer, RAY_ANSWER_BYTES) == 0);
    for (i = 0; i < RAY_ANSWER_BYTES / 4; i++)
        sum += ray_get_u32(answer, i);
    printf("%08x %s\n", (unsigned)sum, name);
    for (i = 0; i < RAY_COLUMN_ROWS; i++) {
        uint32_t kind = ray_get_u32(answer, RAY_ANSWER_KIND + i);
        if (i < ray_get_u32(answer, RAY_ANSWER_ROWS))
            CHECK(kind >= RAY_KIND_EXACT && kind <= RAY_KIND_AFTER_CUSP);
        else
            CHECK(kind == RAY_KIND_UNWRITTEN);
    }
    free(lent);
    free(answer);
    CHECK(called(job, RAY_JOB_BYTES, RAY_ANSWER_BYTES) == 0);
    CHECK(called(job, RAY_JOB_BYTES - 1, RAY_ANSWER_BYTES) == RAY_REFUSED_JOB);
    CHECK(called(job, RAY_JOB_BYTES + 1, RAY_ANSWER_BYTES) == RAY_REFUSED_JOB);
    CHECK(called(job, 1, 1) == RAY_REFUSED_JOB);
    CHECK(called(job, RAY_JOB_BYTES, RAY_ANSWER_BYTES - 1) == RAY_REFUSED_ANSWER);
    CHECK(called(job, RAY_JOB_BYTES, RAY_ANSWER_BYTES + 1) == RAY_REFUSED_ANSWER);
    /* An answer without room for kinds. */
    CHECK(called(job, RAY_JOB_BYTES, RAY_ANSWER_BYTES - 4 * RAY_COLUMN_ROWS) == RAY_REFUSED_ANSWER);
    refused(job, RAY_JOB_K, RAY_K_MAX + 1, RAY_REFUSED_K);
    refused(job, RAY_JOB_NANG, RAY_NANG_MAX + 1, RAY_REFUSED_NANG);
    refused(job, RAY_JOB_FREQ, 0x7fc00000u, RAY_REFUSED_FREQ);
    refused(job, RAY_JOB_AMIND, 0x7fc00000u, RAY_REFUSED_AMIND);
    refused(job, RAY_JOB_GHOP, 0x7fc00000u, RAY_REFUSED_GHOP);
    i = RAY_JOB_FI + RAY_POINT_NUMBERS * ray_get_u32(job, RAY_JOB_K);
    refused(job, i + 1, 0x7fc00000u, RAY_REFUSED_FI);
    refused(job, i + 2, 0x7fc00000u, RAY_REFUSED_FI);
    refused(job, RAY_JOB_FVERT, 0x7fc00000u, RAY_REFUSED_TABLE);
    refused(job, RAY_JOB_HPRIM, 0x7fc00000u, RAY_REFUSED_TABLE);
    refused(job, RAY_JOB_HTRUE, 0x7fc00000u, RAY_REFUSED_TABLE);
    refused(job, RAY_JOB_AFAC + RAY_TABLE_ROWS - 1, 0x7fc00000u, RAY_REFUSED_TABLE);
    refused(job, RAY_JOB_IFOB, RAY_IFOB_MAX + 1, RAY_REFUSED_IFOB);
    refused(job, RAY_JOB_IFOB + RAY_ENTRIES - 1, 0xffffffffu, RAY_REFUSED_IFOB);
}

/* A call on copies that have no float more, which must be left as they were. */
static struct ray_es_modes called_es(size_t km, const float *fs, const float *hs, float gcd, float gcdkm)
{
    const size_t fs_bytes = RAY_POINTS * RAY_POINT_NUMBERS * sizeof *fs, hs_bytes = RAY_POINTS * sizeof *hs;
    uint8_t *lent_fs = exactly((const uint8_t *)fs, fs_bytes), *lent_hs = exactly((const uint8_t *)hs, hs_bytes);
    struct ray_es_modes modes =
        ray_esmod(km, (const float *)(const void *)lent_fs, (const float *)(const void *)lent_hs, gcd, gcdkm, 3.0f, 14.2f, 1.0f);
    CHECK(memcmp(lent_fs, fs, fs_bytes) == 0 && memcmp(lent_hs, hs, hs_bytes) == 0);
    free(lent_fs);
    free(lent_hs);
    return modes;
}

static int is_empty(struct ray_es_hop slot)
{
    return slot.b == -1.0f && slot.hn == -1.0f && slot.hp == -1.0f && slot.timed == -1.0f && !ray_es_slot_is_ray(slot);
}

static void sporadic_e(void)
{
    float fs[RAY_POINTS][RAY_POINT_NUMBERS] = {{3.1f, 5.0f, 7.4f}, {2.2f, 3.6f, 5.9f}};
    float hs[RAY_POINTS] = {110.0f, 105.0f, NAN, NAN, NAN};
    const size_t wrong[] = {0, 3, 5, 6, (size_t)-1};
    struct ray_es_modes modes = called_es(2, fs[0], hs, 0.25f, 1600.0f);
    size_t i;
    CHECK(modes.refusal == 0 && ray_es_slot_is_ray(modes.slot4) && ray_es_slot_is_ray(modes.slot5));
    CHECK(modes.slot4.hn == 1.0f && modes.slot4.hp == 105.0f && modes.slot4.b >= 3.0f && modes.slot4.timed > 5.0f);
    CHECK(modes.slot5.hn == 2.0f && modes.slot5.hp == 105.0f && modes.slot5.b > modes.slot4.b);
    modes = called_es(2, fs[0], hs, 0.5f, 3200.0f);
    CHECK(modes.refusal == 0 && modes.slot4.hn == 2.0f && is_empty(modes.slot5));
    modes = called_es(2, fs[0], hs, 1.0f, 6400.0f);
    CHECK(modes.refusal == 0 && is_empty(modes.slot4) && is_empty(modes.slot5));
    for (i = 0; i < sizeof wrong / sizeof *wrong; i++) {
        modes = called_es(wrong[i], fs[0], hs, 0.25f, 1600.0f);
        CHECK(modes.refusal == RAY_REFUSED_ES && is_empty(modes.slot4) && is_empty(modes.slot5));
    }
    CHECK(called_es(2, fs[0], hs, RAY_GCD_MAX, RAY_GCDKM_MAX).refusal == 0);
    CHECK(called_es(2, fs[0], hs, 0.25f, RAY_GCDKM_MAX + 1.0f).refusal == RAY_REFUSED_ES);
    CHECK(ray_esmod(6, fs[0], hs, 0.0f, 0.0f, NAN, 1.0f, 1.0f).refusal == RAY_REFUSED_FREQ);
    CHECK(ray_esmod(6, fs[0], hs, 0.0f, 0.0f, NAN, 2.0f, 1.0f).refusal == RAY_REFUSED_AMIND);
}

int main(int argc, char **argv)
{
    int i;
    words();
    angles();
    sporadic_e();
    for (i = 1; i < argc; i++)
        accepted(argv[i]);
    return failures != 0 || argc < 2;
}
