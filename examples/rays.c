/* Prints the rays of a job:  rays JOB  (C99, and C++17 as it stands)
 *
 * Exit status: 0 done; 1 to 10 the limit that the job breaks; 64 wrong use; 66 JOB cannot be read;
 * 70 the floating-point mode is not the usual one; 74 not all could be written. */
#include "ray.h"

#include <stdio.h>

/* One byte more than a job has, so that a longer file is told from a job. */
static uint8_t job[RAY_JOB_BYTES + 1];
static uint8_t answer[RAY_ANSWER_BYTES];

static const char *layer_name(uint32_t layer)
{
    switch (layer) {
    case RAY_LAYER_E: return "E";
    case RAY_LAYER_F1: return "F1";
    case RAY_LAYER_F2: return "F2";
    default: return "?";
    }
}

static void print_answer(const char *name)
{
    unsigned rays = 0;
    size_t slot;
    float km = ray_get_f32(job, RAY_JOB_GHOP) * RAY_EARTH_KM;

    for (slot = 0; slot < RAY_SLOTS; slot++)
        rays += ray_slot_is_ray(job, answer, slot) ? 1u : 0u;
    printf("%s: %.3f MHz, asked hop %.1f km, minimum angle %.3f deg\n", name,
           (double)ray_get_f32(job, RAY_JOB_FREQ), (double)km, (double)ray_get_f32(job, RAY_JOB_AMIND));
    printf("rays %u, rows %u, looks %u, pairs %u\n", rays,
           (unsigned)ray_get_u32(answer, RAY_ANSWER_ROWS), (unsigned)ray_get_u32(answer, RAY_ANSWER_LOOKS),
           (unsigned)ray_get_u32(answer, RAY_ANSWER_PAIRS));
    for (slot = 0; slot < RAY_SLOTS; slot++)
        if (ray_slot_is_ray(job, answer, slot))
            printf("slot %u: %.3f deg, layer %s, virtual height %.1f km, true height %.1f km\n",
                   (unsigned)slot + 1, (double)ray_get_f32(answer, RAY_ANSWER_DELMOD + slot),
                   layer_name(ray_get_u32(answer, RAY_ANSWER_ITMOD + slot)),
                   (double)ray_get_f32(answer, RAY_ANSWER_HPMOD + slot),
                   (double)ray_get_f32(answer, RAY_ANSWER_HTMOD + slot));
}

int main(int argc, char **argv)
{
    FILE *file;
    size_t length;
    int unread;
    uint32_t refusal;

    if (argc != 2) {
        fprintf(stderr, "rays takes JOB\n");
        return 64;
    }
    file = fopen(argv[1], "rb");
    if (file == NULL) {
        perror(argv[1]);
        return 66;
    }
    length = fread(job, 1, sizeof job, file);
    unread = ferror(file);
    fclose(file);
    if (unread) {
        fprintf(stderr, "%s: cannot be read\n", argv[1]);
        return 66;
    }
    if (!ray_default_fp_mode()) {
        fprintf(stderr, "the floating-point mode is not the usual one\n");
        return 70;
    }
    refusal = ray_job(job, length, answer, sizeof answer);
    if (refusal != 0) {
        fprintf(stderr, "%s: refused, limit %u: %s\n", argv[1], (unsigned)refusal, ray_refusal_text(refusal));
        return (int)refusal;
    }
    print_answer(argv[1]);
    return fflush(stdout) == 0 ? 0 : 74;
}
