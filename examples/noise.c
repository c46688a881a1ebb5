/*
 * A first noise figure: two frames of one scene with a gap in the window, and what a refusal says.
 * bindings/rust/examples/noise.rs is the same program in Rust.
 *
 *   cc noise.c $(pkg-config --cflags --libs tippovrain) -o noise
 *
 * Where the library was installed below a PREFIX of your own: PKG_CONFIG_PATH=PREFIX/lib/pkgconfig.
 */
#include <inttypes.h>
#include <stdio.h>
#include <tippovrain.h>

/* Four sites wide, two high; samples of 10 bits, so a full scale of 1023 grey levels. */
enum { WIDTH = 4, HEIGHT = 2, SITES = WIDTH * HEIGHT, FULL_SCALE = 1023, BLACK_LEVEL = 64 };

/* What a refusal of the two calls below means; 6 has its count instead. */
static const char *meaning(uint64_t number)
{
    switch (number) {
    case 1: return "a side is odd, or not in 2 to 128 sites";
    case 2: return "the full scale is not in 1 to 4095 grey levels";
    case 3: return "the black level is above full scale, in grey levels";
    case 4: return "a buffer has not exactly width * height elements";
    case 5: return "a mask code is above 3 (0 surveyed, 1 gap, 2 defect, 3 filled)";
    case 7: return "too few surveyed sites: a pair needs 2, the dark level 1";
    default: return "see the table in tippovrain.h";
    }
}

/*
 * Only 5 and 6 have a place: a site, numbered from 0 in row order. Only 6 has a count: a hot site gives one for each
 * frame, a wrong exposure or a wrong full scale many.
 */
static void print_refusal(uint64_t number, uint64_t place, uint64_t over)
{
    printf("refused %" PRIu64, number);
    if (number == 5 || number == 6) printf(" at site %" PRIu64, place);
    if (number == 6)
        printf(": %" PRIu64 " sample%s above full scale, counted at all surveyed sites\n", over, over == 1 ? "" : "s");
    else
        printf(": %s\n", meaning(number));
}

int main(void)
{
    /* The sample of a gap is never read: it may be any number. */
    const uint16_t first[SITES] = {100, 101, 102, 103, 100, 65535, 102, 103};
    const uint16_t second[SITES] = {101, 101, 102, 104, 100, 65535, 103, 103};
    uint8_t mask[SITES] = {0, 0, 0, 0, 0, 1, 0, 0};
    uint64_t refusal, place, over, n, p, q, r, dark_sites;
    int64_t dark;
    double variance, noise;

    refusal = tip_pair_figures(WIDTH, HEIGHT, FULL_SCALE, mask, SITES, first, SITES, second, SITES,
                               &place, &over, &n, &p, &q, &r, &variance, &noise);
    if (refusal == 0)
        refusal = tip_dark_level(WIDTH, HEIGHT, FULL_SCALE, BLACK_LEVEL, mask, SITES, first, SITES,
                                 &place, &over, &dark, &dark_sites);
    if (refusal != 0) {
        print_refusal(refusal, place, over);
        return 1;
    }
    printf("sites: %" PRIu64 " of %d surveyed\n", n, SITES);
    printf("variance: %" PRIu64 "/%" PRIu64 " = %.6f grey levels squared\n", p, q, variance);
    printf("noise: %" PRIu64 "/%" PRIu64 " = %.6f grey levels\n", r, 64 * n, noise);
    printf("dark level: %" PRId64 "/%" PRIu64 " grey levels above black\n", dark, dark_sites);

    /* Were the gap surveyed, its sample would count, and is above full scale in both frames. */
    mask[5] = 0;
    refusal = tip_pair_figures(WIDTH, HEIGHT, FULL_SCALE, mask, SITES, first, SITES, second, SITES,
                               &place, &over, &n, &p, &q, &r, &variance, &noise);
    printf("without the gap: ");
    if (refusal == 0)
        printf("%.6f grey levels\n", noise);
    else
        print_refusal(refusal, place, over);
    return 0;
}
