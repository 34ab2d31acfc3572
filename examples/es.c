/* Prints the rays by sporadic E of a path of 1,600 km:  es  (C99, and C++17 as it stands)
 *
 * Exit status: 0 done; 5, 6 or 14 the limit that a number breaks; 70 the floating-point mode is not the
 * usual one; 74 not all could be written. */
#include "ray.h"

#include <stdio.h>

static void print_slot(unsigned slot, struct ray_es_hop hop)
{
    if (ray_es_slot_is_ray(hop))
        printf("slot %u: %.3f deg, hops %.0f, height %.1f km, delay %.3f ms\n", slot, (double)hop.b,
               (double)hop.hn, (double)hop.hp, (double)hop.timed);
    else
        printf("slot %u: empty\n", slot);
}

int main(void)
{
    /* Two points count: lower decile, median and upper decile in MHz, the layer's height in km. */
    float fs[RAY_POINTS][RAY_POINT_NUMBERS] = {{3.1f, 5.0f, 7.4f}, {2.2f, 3.6f, 5.9f}};
    float hs[RAY_POINTS] = {110.0f, 105.0f};
    float km = 1600.0f;
    struct ray_es_modes modes;

    if (!ray_default_fp_mode()) {
        fprintf(stderr, "the floating-point mode is not the usual one\n");
        return 70;
    }
    modes = ray_esmod(2, fs[0], hs, km / RAY_EARTH_KM, km, 3.0f, 14.2f, 1.0f);
    if (modes.refusal != 0) {
        fprintf(stderr, "refused, limit %u: %s\n", (unsigned)modes.refusal, ray_refusal_text(modes.refusal));
        return (int)modes.refusal;
    }
    print_slot(4, modes.slot4);
    print_slot(5, modes.slot5);
    return fflush(stdout) == 0 ? 0 : 74;
}
