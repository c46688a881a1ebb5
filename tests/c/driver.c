/*
 * Calls the library as a C program would. Each check is a line 'ok NAME' or 'FAILED NAME'; the last line counts
 * them; the exit status is 1 where one failed. The functions for the calls are listed in main.
 *
 * It is also built where no C library's headers are at hand (tests/c/run), so it takes nothing but printf from one.
 */
#include "../../include/tippovrain.h"

int printf(const char *format, ...);

static unsigned long checks, failures;

static void check(const char *call, const char *name, int holds)
{
    checks++;
    failures += !holds;
    printf("%s %s: %s\n", holds ? "ok" : "FAILED", call, name);
}

/* What an answer's numbers hold before a call, so that one which is not written shows. */
#define UNWRITTEN 77

/* ---- tip_unpack_raw10 ---- */

/* Room for 128 x 130, and one element over. */
static uint8_t packed[128 * 130 / 4 * 5 + 1];
static uint16_t unpacked[128 * 130 + 1];

#define COUNT(array) (sizeof(array) / sizeof(array)[0])

/* What the byte or the sample at i holds before a call; no unpacked sample is so high. */
static uint8_t byte_before(size_t i) { return (uint8_t)(i * 7 + i / 256); }
static uint16_t sample_before(size_t i) { return (uint16_t)(0x8000 + i); }

static void set_before(void)
{
    for (size_t i = 0; i < COUNT(packed); i++) packed[i] = byte_before(i);
    for (size_t i = 0; i < COUNT(unpacked); i++) unpacked[i] = sample_before(i);
}

/* Whether both buffers hold what they held before the call, the bytes from from_byte on and the samples from from_sample on. */
static int as_before(size_t from_byte, size_t from_sample)
{
    for (size_t i = from_byte; i < COUNT(packed); i++)
        if (packed[i] != byte_before(i)) return 0;
    for (size_t i = from_sample; i < COUNT(unpacked); i++)
        if (unpacked[i] != sample_before(i)) return 0;
    return 1;
}

static int unpacks_one_group(const uint8_t bytes[5], const uint16_t samples[4])
{
    uint64_t place = UNWRITTEN;
    set_before();
    for (size_t i = 0; i < 5; i++) packed[i] = bytes[i];
    if (tip_unpack_raw10(2, 2, packed, 5, unpacked, 4, &place) != 0 || place != 0) return 0;
    for (size_t i = 0; i < 5; i++)
        if (packed[i] != bytes[i]) return 0;
    for (size_t i = 0; i < 4; i++)
        if (unpacked[i] != samples[i]) return 0;
    return as_before(5, 4);
}

/* At 128 x 128 each of the 1,024 values stands at each of the four places of a group; their low bits differ in a group. */
static uint16_t sample_of(size_t i) { return (uint16_t)((i / 4 + 257 * (i % 4)) % 1024); }

static int unpacks_sides(size_t width, size_t height)
{
    size_t sites = width * height;
    uint64_t place = UNWRITTEN;
    set_before();
    for (size_t i = 0; i < sites; i++) {
        uint8_t *group = packed + i / 4 * 5;
        if (i % 4 == 0) group[4] = 0;
        group[i % 4] = (uint8_t)(sample_of(i) >> 2);
        group[4] = (uint8_t)(group[4] | (sample_of(i) & 3) << (2 * (i % 4)));
    }
    if (tip_unpack_raw10(width, height, packed, sites / 4 * 5, unpacked, sites, &place) != 0 || place != 0) return 0;
    for (size_t i = 0; i < sites; i++)
        if (unpacked[i] != sample_of(i)) return 0;
    return as_before(sites / 4 * 5, sites);
}

static int refuses_to_unpack(uint64_t number, size_t width, size_t height, size_t bytes_len, size_t out_len)
{
    uint64_t place = UNWRITTEN;
    set_before();
    return tip_unpack_raw10(width, height, packed, bytes_len, unpacked, out_len, &place) == number && place == 0 && as_before(0, 0);
}

static void unpack_raw10(void)
{
    static const uint8_t k3[5] = {25, 25, 25, 25, 228}, k4[5] = {25, 25, 25, 26, 37};
    static const uint16_t k3_samples[4] = {100, 101, 102, 103}, k4_samples[4] = {101, 101, 102, 104};
    /* Only what the name says is at fault, where lengths can be right at all. */
    static const struct {
        const char *name;
        uint64_t number;
        size_t width, height, bytes_len, out_len;
    } refused[] = {
        {"refused 1, width 0", 1, 0, 2, 0, 0},
        {"refused 1, height 0", 1, 2, 0, 0, 0},
        {"refused 1, width 1", 1, 1, 4, 5, 4},
        {"refused 1, height 1", 1, 4, 1, 5, 4},
        {"refused 1, width 127", 1, 127, 4, 635, 508},
        {"refused 1, height 127", 1, 4, 127, 635, 508},
        {"refused 1, width 130", 1, 130, 128, 20800, 16640},
        {"refused 1, height 130", 1, 128, 130, 20800, 16640},
        {"refused 1, width SIZE_MAX", 1, SIZE_MAX, 2, 0, 0},
        {"refused 1, height SIZE_MAX", 1, 2, SIZE_MAX, 0, 0},
        {"refused 1, both SIZE_MAX, whose product is 1 modulo 2^64", 1, SIZE_MAX, SIZE_MAX, 1, 1},
        {"refused 1, an even width whose product is 0 modulo 2^64", 1, SIZE_MAX / 2 + 1, 2, 0, 0},
        {"refused 1 before 4", 1, 3, 2, 0, 0},
        {"refused 4, bytes one short", 4, 2, 2, 4, 4},
        {"refused 4, bytes one over", 4, 2, 2, 6, 4},
        {"refused 4, out one short", 4, 2, 2, 5, 3},
        {"refused 4, out one over", 4, 2, 2, 5, 5},
        {"refused 4, no bytes", 4, 2, 2, 0, 4},
        {"refused 4, no out", 4, 2, 2, 5, 0},
        {"refused 4, neither", 4, 2, 2, 0, 0},
        {"refused 4, 128 x 128, bytes one short", 4, 128, 128, 20479, 16384},
        {"refused 4, 128 x 128, bytes one over", 4, 128, 128, 20481, 16384},
        {"refused 4, 128 x 128, out one short", 4, 128, 128, 20480, 16383},
        {"refused 4, 128 x 128, out one over", 4, 128, 128, 20480, 16385},
    };
    const char *call = "tip_unpack_raw10";

    check(call, "K3", unpacks_one_group(k3, k3_samples));
    check(call, "K4", unpacks_one_group(k4, k4_samples));
    check(call, "128 x 128, every value at every place of a group", unpacks_sides(128, 128));
    check(call, "2 x 128", unpacks_sides(2, 128));
    check(call, "128 x 2", unpacks_sides(128, 2));
    check(call, "6 x 10, groups that run on into the next row", unpacks_sides(6, 10));
    for (size_t i = 0; i < COUNT(refused); i++)
        check(call, refused[i].name,
              refuses_to_unpack(refused[i].number, refused[i].width, refused[i].height, refused[i].bytes_len, refused[i].out_len));
}

/* ---- windows that the calls with a mask are tried on: 2 x 2, and the greatest ---- */

static const uint8_t all_surveyed[4] = {0, 0, 0, 0}, one_surveyed[4] = {1, 2, 3, 0}, none_surveyed[4] = {1, 2, 3, 1}, bad_code[4] = {0, 0, 4, 0};
static const uint16_t k1_first[4] = {100, 101, 102, 103}, k1_second[4] = {101, 101, 102, 104};

/* Two surveyed sites above full scale 1023, beside a gap the first of them at 2, beside a defect and a filled site at 1; what is not surveyed holds more. */
static const uint8_t gap_beside[4] = {0, 1, 0, 0}, defects_beside[4] = {2, 0, 3, 0};
static const uint16_t above_gap[4] = {1023, 65535, 1024, 4095}, above_defects[4] = {65535, 1024, 65535, 1025};

static const uint8_t great_surveyed[128 * 128];

/* The bits of a float: -0.0 and a NaN are told apart from what they compare equal to. */
static uint64_t bits(double x)
{
    union { double x; uint64_t bits; } of;
    of.x = x;
    return of.bits;
}

/* ---- tip_pair_figures ---- */

struct pair_figures {
    uint64_t n, p, q, r;
    double variance, noise;
};

static int has_figures(size_t side, const uint8_t *mask, uint64_t full_scale, const uint16_t *first, const uint16_t *second,
                       uint64_t number, uint64_t place, uint64_t over, const struct pair_figures *figures)
{
    uint64_t at = UNWRITTEN, above = UNWRITTEN;
    struct pair_figures got = {UNWRITTEN, UNWRITTEN, UNWRITTEN, UNWRITTEN, UNWRITTEN, UNWRITTEN};
    size_t sites = side * side;
    return tip_pair_figures(side, side, full_scale, mask, sites, first, sites, second, sites,
                            &at, &above, &got.n, &got.p, &got.q, &got.r, &got.variance, &got.noise) == number
        && at == place && above == over && got.n == figures->n && got.p == figures->p && got.q == figures->q && got.r == figures->r
        && bits(got.variance) == bits(figures->variance) && bits(got.noise) == bits(figures->noise);
}

static void pair(void)
{
    static const uint16_t drifted[4] = {107, 108, 109, 110}, last_above[4] = {0, 0, 0, 1024}, first_two_above[4] = {1024, 1024, 0, 0};
    /* 0 and 4095 in turn, one against the other: p is (16384 * 4095)^2, the greatest of all windows. */
    static uint16_t low_first[128 * 128], high_first[128 * 128], all_high[128 * 128];
    static const struct pair_figures none, k1 = {4, 4, 32, 90, 0.125, 90.0 / 256.0}, equal = {4, 0, 32, 0, 0.0, 0.0},
        greatest = {16384, 4501400872550400, 536870912, 3036259044, 8384512.5, 3036259044.0 / (64.0 * 16384.0)};
    const char *call = "tip_pair_figures";

    for (size_t i = 0; i < COUNT(low_first); i++) {
        low_first[i] = i % 2 ? 4095 : 0;
        high_first[i] = i % 2 ? 0 : 4095;
        all_high[i] = 4095;
    }
    check(call, "K1", has_figures(2, all_surveyed, 1023, k1_first, k1_second, 0, 0, 0, &k1));
    check(call, "K2", has_figures(2, all_surveyed, 1023, k1_first, drifted, 0, 0, 0, &equal));
    check(call, "the greatest p", has_figures(128, great_surveyed, 4095, low_first, high_first, 0, 0, 0, &greatest));
    check(call, "one frame twice", has_figures(2, all_surveyed, 1023, k1_first, k1_first, 0, 0, 0, &equal));
    check(call, "refused 2", has_figures(2, all_surveyed, 4096, k1_first, k1_second, 2, 0, 0, &none));
    check(call, "refused 5 at 2", has_figures(2, bad_code, 1023, k1_first, k1_second, 5, 2, 0, &none));
    check(call, "refused 5 at 2, samples above full scale", has_figures(2, bad_code, 101, k1_first, k1_second, 5, 2, 0, &none));
    check(call, "refused 6 at 3, 1 over, of the second frame", has_figures(2, all_surveyed, 103, k1_first, k1_second, 6, 3, 1, &none));
    check(call, "refused 6 at 3, 1 over, of the first frame", has_figures(2, all_surveyed, 103, k1_second, k1_first, 6, 3, 1, &none));
    check(call, "refused 6 at 2, 4 over, of both", has_figures(2, all_surveyed, 101, k1_first, k1_second, 6, 2, 4, &none));
    check(call, "refused 6 at 3, 3 over, more of the second", has_figures(2, all_surveyed, 1023, last_above, first_two_above, 6, 3, 3, &none));
    check(call, "refused 6 at 2, 4 over, beside a gap", has_figures(2, gap_beside, 1023, above_gap, above_gap, 6, 2, 4, &none));
    check(call, "refused 6 at 1, 2 over, beside a defect and a filled site",
          has_figures(2, defects_beside, 1023, k1_first, above_defects, 6, 1, 2, &none));
    check(call, "refused 6 at 0, all over", has_figures(128, great_surveyed, 4094, all_high, all_high, 6, 0, 32768, &none));
    check(call, "refused 7", has_figures(2, one_surveyed, 4095, above_gap, above_gap, 7, 0, 0, &none));
}

/* ---- tip_dark_level ---- */

static int has_dark_level(uint64_t black_level, const uint8_t mask[4], const uint16_t frame[4],
                          uint64_t number, uint64_t place, uint64_t over, int64_t numerator, uint64_t denominator)
{
    uint64_t at = UNWRITTEN, above = UNWRITTEN, got_denominator = UNWRITTEN;
    int64_t got_numerator = UNWRITTEN;
    return tip_dark_level(2, 2, 1023, black_level, mask, 4, frame, 4, &at, &above, &got_numerator, &got_denominator) == number
        && at == place && above == over && got_numerator == numerator && got_denominator == denominator;
}

static void dark_level(void)
{
    static const uint16_t k5[4] = {60, 64, 64, 64}, one_above[4] = {60, 1024, 64, 64}, three_above[4] = {60, 1024, 1024, 1024};

    check("tip_dark_level", "K5", has_dark_level(64, all_surveyed, k5, 0, 0, 0, -4, 4));
    check("tip_dark_level", "K1's first frame", has_dark_level(64, all_surveyed, k1_first, 0, 0, 0, 150, 4));
    check("tip_dark_level", "refused 3", has_dark_level(1024, all_surveyed, three_above, 3, 0, 0, 0, 0));
    check("tip_dark_level", "refused 5 at 2", has_dark_level(64, bad_code, three_above, 5, 2, 0, 0, 0));
    check("tip_dark_level", "refused 6 at 1, 1 over", has_dark_level(64, all_surveyed, one_above, 6, 1, 1, 0, 0));
    check("tip_dark_level", "refused 6 at 1, 3 over", has_dark_level(64, all_surveyed, three_above, 6, 1, 3, 0, 0));
    check("tip_dark_level", "refused 6 at 2, 2 over, beside a gap", has_dark_level(64, gap_beside, above_gap, 6, 2, 2, 0, 0));
    check("tip_dark_level", "refused 6 at 1, 2 over, beside a defect and a filled site",
          has_dark_level(64, defects_beside, above_defects, 6, 1, 2, 0, 0));
    check("tip_dark_level", "refused 7", has_dark_level(64, none_surveyed, above_defects, 7, 0, 0, 0, 0));
}

/* ---- tip_stack_add, tip_stack_variance, tip_blinking_sites ---- */

/* What a 2 x 2 stack holds for each site, and an element over. */
struct stack {
    uint32_t sums[5], squares[5];
    uint16_t least[5], greatest[5];
};

static int same_stack(const struct stack *one, const struct stack *other)
{
    for (size_t i = 0; i < 5; i++)
        if (one->sums[i] != other->sums[i] || one->squares[i] != other->squares[i]
            || one->least[i] != other->least[i] || one->greatest[i] != other->greatest[i]) return 0;
    return 1;
}

static const struct stack no_frames;

/* Of one frame, k1_first, and of both; at a gap at site 3 what no frames give, and it stays. */
static const struct stack
    k1_one = {{100, 101, 102, 103}, {10000, 10201, 10404, 10609}, {100, 101, 102, 103}, {100, 101, 102, 103}},
    k1_both = {{201, 202, 204, 207}, {20201, 20402, 20808, 21425}, {100, 101, 102, 103}, {101, 101, 102, 104}},
    before_gap = {{0, 0, 0, 4294967295u}, {0, 0, 0, 7}, {0, 0, 0, 65535}, {0, 0, 0, 1}},
    beside_gap = {{100, 101, 102, 4294967295u}, {10000, 10201, 10404, 7}, {100, 101, 102, 65535}, {100, 101, 102, 1}};
static const uint8_t last_gap[4] = {0, 0, 0, 1};

/* Site 0 blinks: at 100 in the first frame and at 900 in the second, the others at 500 in both. */
static const uint16_t low[4] = {100, 500, 500, 500}, high[4] = {900, 500, 500, 500};
static const struct stack blinking = {{1000, 1000, 1000, 1000}, {820000, 500000, 500000, 500000}, {100, 500, 500, 500}, {900, 500, 500, 500}};

/* Where the least is 0 it leaves a stack's numbers as they are. */
static const uint16_t black[4];

/* Whether a frame offered to a stack gets an answer, and leaves the stack that it should. */
static int adds(uint64_t full_scale, uint64_t frames, const uint8_t mask[4], const uint16_t frame[4], const struct stack *before,
                uint64_t number, uint64_t place, uint64_t over, const struct stack *after)
{
    uint64_t at = UNWRITTEN, above = UNWRITTEN, count = UNWRITTEN;
    struct stack of = *before;
    return tip_stack_add(2, 2, full_scale, frames, mask, 4, frame, 4, of.sums, 4, of.squares, 4, of.least, 4, of.greatest, 4,
                         &at, &above, &count) == number
        && at == place && above == over && count == (number ? 0 : frames + 1) && same_stack(&of, after);
}

/* A hundred frames in turn, low and high; then one more is refused, with 12 at 100 and with 3 at 101. */
static int adds_a_hundred(void)
{
    uint64_t at, above, count = 0;
    struct stack of = no_frames;
    for (uint64_t k = 0; k < 100; k++)
        if (tip_stack_add(2, 2, 1023, k, all_surveyed, 4, k % 2 ? high : low, 4, of.sums, 4, of.squares, 4, of.least, 4, of.greatest, 4,
                          &at, &above, &count) != 0 || count != k + 1) return 0;
    return of.sums[0] == 50000 && of.sums[3] == 50000 && of.squares[0] == 41000000 && of.least[0] == 100 && of.greatest[0] == 900
        && adds(1023, 100, all_surveyed, low, &of, 12, 0, 0, &of) && adds(1023, 101, all_surveyed, low, &of, 3, 0, 0, &of);
}

static int has_stack_variance(size_t side, uint64_t full_scale, uint64_t frames, const uint8_t *mask,
                              const uint32_t *sums, const uint32_t *squares, const uint16_t *least, const uint16_t *greatest,
                              uint64_t number, uint64_t place, uint64_t numerator, uint64_t denominator, double variance)
{
    uint64_t at = UNWRITTEN, got_numerator = UNWRITTEN, got_denominator = UNWRITTEN;
    double got = UNWRITTEN;
    size_t sites = side * side;
    return tip_stack_variance(side, side, full_scale, frames, mask, sites, sums, sites, squares, sites, least, sites, greatest, sites,
                              &at, &got_numerator, &got_denominator, &got) == number
        && at == place && got_numerator == numerator && got_denominator == denominator && bits(got) == bits(variance);
}

static int varies(uint64_t full_scale, uint64_t frames, const uint8_t mask[4], const struct stack *of,
                  uint64_t number, uint64_t place, uint64_t numerator, uint64_t denominator, double variance)
{
    return has_stack_variance(2, full_scale, frames, mask, of->sums, of->squares, of->least, of->greatest,
                              number, place, numerator, denominator, variance);
}

static int blinks(uint64_t full_scale, uint64_t frames, uint64_t spread, const uint8_t mask[4], const struct stack *of,
                  uint64_t number, uint64_t place, uint64_t count)
{
    uint64_t at = UNWRITTEN, got = UNWRITTEN;
    return tip_blinking_sites(2, 2, full_scale, frames, spread, mask, 4, of->sums, 4, of->squares, 4, of->least, 4, of->greatest, 4,
                              &at, &got) == number
        && at == place && got == count;
}

static void stack_add(void)
{
    static const struct stack low_one = {{100, 500, 500, 500}, {10000, 250000, 250000, 250000}, {100, 500, 500, 500}, {100, 500, 500, 500}};
    static const struct stack high_one = {{900, 500, 500, 500}, {810000, 250000, 250000, 250000}, {900, 500, 500, 500}, {900, 500, 500, 500}};
    const char *call = "tip_stack_add";

    check(call, "the first frame", adds(1023, 0, all_surveyed, k1_first, &no_frames, 0, 0, 0, &k1_one));
    check(call, "the second", adds(1023, 1, all_surveyed, k1_second, &k1_one, 0, 0, 0, &k1_both));
    check(call, "low, then high", adds(1023, 1, all_surveyed, high, &low_one, 0, 0, 0, &blinking));
    check(call, "high, then low", adds(1023, 1, all_surveyed, low, &high_one, 0, 0, 0, &blinking));
    check(call, "what is at a gap stays", adds(1023, 0, last_gap, k1_first, &before_gap, 0, 0, 0, &beside_gap));
    check(call, "a black frame, 99 in", adds(1023, 99, all_surveyed, black, &no_frames, 0, 0, 0, &no_frames));
    check(call, "a hundred frames, and no more", adds_a_hundred());
    check(call, "refused 2", adds(0, 101, bad_code, above_gap, &blinking, 2, 0, 0, &blinking));
    check(call, "refused 3 at 101", adds(1023, 101, bad_code, above_gap, &blinking, 3, 0, 0, &blinking));
    check(call, "refused 5 at 2", adds(1023, 0, bad_code, above_gap, &blinking, 5, 2, 0, &blinking));
    check(call, "refused 6 at 1, 3 over", adds(1023, 0, all_surveyed, above_gap, &blinking, 6, 1, 3, &blinking));
    check(call, "refused 6 at 2, 2 over, beside a gap", adds(1023, 0, gap_beside, above_gap, &blinking, 6, 2, 2, &blinking));
    check(call, "refused 6 at 1, 2 over, beside a defect and a filled site",
          adds(1023, 0, defects_beside, above_defects, &blinking, 6, 1, 2, &blinking));
    check(call, "refused 11 with no frame in", adds(1023, 0, all_surveyed, k1_first, &k1_both, 11, 0, 0, &k1_both));
    check(call, "refused 11 with 100 in, before 12", adds(1023, 100, all_surveyed, k1_first, &k1_both, 11, 0, 0, &k1_both));
    check(call, "refused 12 at 100", adds(1023, 100, all_surveyed, black, &no_frames, 12, 0, 0, &no_frames));
}

static void stack_variance(void)
{
    /* Sums of 0, squares as great as refusal 11 lets pass: the numerator is 16384 * (100 * 4095)^2, the greatest of all stacks. */
    static const uint32_t no_sums[128 * 128];
    static const uint16_t all_zero[128 * 128];
    static uint32_t great_squares[128 * 128];
    const char *call = "tip_stack_variance";

    for (size_t i = 0; i < COUNT(great_squares); i++) great_squares[i] = 100 * 4095 * 4095;
    check(call, "two frames", varies(1023, 2, all_surveyed, &k1_both, 0, 0, 2, 16, 0.125));
    check(call, "a blinking site", varies(1023, 2, all_surveyed, &blinking, 0, 0, 640000, 16, 40000.0));
    check(call, "the greatest numerator",
          has_stack_variance(128, 4095, 100, great_surveyed, no_sums, great_squares, all_zero, all_zero, 0, 0, 2747437056000000, 163840000, 16769025.0));
    check(call, "what is at a gap is not read", varies(1023, 2, last_gap, &before_gap, 0, 0, 0, 12, 0.0));
    check(call, "refused 2", varies(4096, 0, bad_code, &k1_both, 2, 0, 0, 0, 0.0));
    check(call, "refused 3 at 0", varies(1023, 0, bad_code, &k1_both, 3, 0, 0, 0, 0.0));
    check(call, "refused 3 at 101", varies(1023, 101, bad_code, &k1_both, 3, 0, 0, 0, 0.0));
    check(call, "refused 5 at 2", varies(1023, 1, bad_code, &k1_both, 5, 2, 0, 0, 0.0));
    check(call, "refused 7, one frame in", varies(1023, 1, all_surveyed, &k1_both, 7, 0, 0, 0, 0.0));
    check(call, "refused 7, no surveyed site", varies(1023, 2, none_surveyed, &k1_both, 7, 0, 0, 0, 0.0));
    check(call, "refused 11 with 100 in", varies(1023, 100, all_surveyed, &k1_both, 11, 0, 0, 0, 0.0));
}

static void blinking_sites(void)
{
    /* From 0 to full scale 4095 at every site. */
    static const struct stack widest = {{4095, 4095, 4095, 4095}, {16769025, 16769025, 16769025, 16769025}, {0}, {4095, 4095, 4095, 4095}};
    static const uint8_t first_gap[4] = {1, 0, 0, 0};
    const char *call = "tip_blinking_sites";

    check(call, "one at spread 800", blinks(1023, 2, 800, all_surveyed, &blinking, 0, 0, 1));
    check(call, "none at spread 801", blinks(1023, 2, 801, all_surveyed, &blinking, 0, 0, 0));
    check(call, "one at spread 1", blinks(1023, 2, 1, all_surveyed, &blinking, 0, 0, 1));
    check(call, "two at spread 1", blinks(1023, 2, 1, all_surveyed, &k1_both, 0, 0, 2));
    check(call, "none of one frame", blinks(1023, 1, 1, all_surveyed, &k1_one, 0, 0, 0));
    check(call, "all at spread 4095", blinks(4095, 2, 4095, all_surveyed, &widest, 0, 0, 4));
    check(call, "a gap is not counted", blinks(1023, 2, 800, first_gap, &blinking, 0, 0, 0));
    check(call, "a gap's least above its greatest", blinks(1023, 1, 1, last_gap, &beside_gap, 0, 0, 0));
    check(call, "no surveyed site", blinks(1023, 100, 1, none_surveyed, &blinking, 0, 0, 0));
    check(call, "refused 2", blinks(0, 0, 0, bad_code, &blinking, 2, 0, 0));
    check(call, "refused 3, no frame in", blinks(1023, 0, 800, bad_code, &no_frames, 3, 0, 0));
    check(call, "refused 3, 101 in", blinks(1023, 101, 800, bad_code, &blinking, 3, 0, 0));
    check(call, "refused 3, spread 0", blinks(1023, 2, 0, bad_code, &blinking, 3, 0, 0));
    check(call, "refused 3, spread 4096", blinks(1023, 2, 4096, bad_code, &blinking, 3, 0, 0));
    check(call, "refused 3, spread UINT64_MAX", blinks(1023, 2, UINT64_MAX, bad_code, &blinking, 3, 0, 0));
    check(call, "refused 5 at 2, spread 4095", blinks(1023, 1, 4095, bad_code, &blinking, 5, 2, 0));
    check(call, "refused 11, one frame in", blinks(1023, 1, 800, all_surveyed, &k1_both, 11, 0, 0));
    check(call, "refused 11, 100 in", blinks(1023, 100, 800, all_surveyed, &k1_both, 11, 0, 0));
}

/* A stack that holds four numbers at site 3, and 0 at the others. */
static struct stack stack_of(const uint32_t held[4])
{
    struct stack of = no_frames;
    of.sums[3] = held[0];
    of.squares[3] = held[1];
    of.least[3] = (uint16_t)held[2];
    of.greatest[3] = (uint16_t)held[3];
    return of;
}

static void impossible_stacks(void)
{
    /* At full scale 1: the arms of 11 that decide alone, each beside what passes. Sum, sum of squares, least, greatest. */
    static const struct {
        const char *name;
        uint64_t frames;
        uint32_t impossible[4], possible[4];
    } arms[] = {
        {"refused 11, no frame in, squares", 0, {0, 1, 0, 0}, {0, 0, 0, 0}},
        {"refused 11, no frame in, greatest", 0, {0, 0, 0, 1}, {0, 0, 0, 0}},
        {"refused 11, one in, squares", 1, {0, 2, 0, 0}, {0, 1, 0, 0}},
        {"refused 11, one in, squares for the sum", 1, {1, 0, 0, 1}, {1, 1, 0, 1}},
        {"refused 11, one in, greatest above full scale", 1, {0, 0, 0, 2}, {0, 0, 0, 1}},
        {"refused 11, one in, sum below least", 1, {0, 0, 1, 1}, {0, 0, 0, 1}},
        {"refused 11, one in, sum above greatest", 1, {1, 1, 0, 0}, {1, 1, 0, 1}},
        {"refused 11, two in, squares", 2, {0, 3, 0, 0}, {0, 2, 0, 0}},
        {"refused 11, two in, squares for the sum", 2, {2, 1, 0, 1}, {2, 2, 0, 1}},
        {"refused 11, two in, greatest above full scale", 2, {0, 0, 0, 2}, {0, 0, 0, 1}},
        {"refused 11, two in, sum below twice least", 2, {1, 1, 1, 1}, {1, 1, 0, 1}},
        {"refused 11, two in, sum above twice greatest", 2, {1, 1, 0, 0}, {1, 1, 0, 1}},
    };

    for (size_t i = 0; i < COUNT(arms); i++) {
        uint64_t k = arms[i].frames, numerator = k * arms[i].possible[1] - arms[i].possible[0] * arms[i].possible[0];
        struct stack bad = stack_of(arms[i].impossible), good = stack_of(arms[i].possible);
        check("tip_stack_add", arms[i].name,
              adds(1, k, all_surveyed, black, &bad, 11, 0, 0, &bad) && adds(1, k, all_surveyed, black, &good, 0, 0, 0, &good)
              && adds(1, k, last_gap, black, &bad, 0, 0, 0, &bad));
        if (k >= 1)
            check("tip_blinking_sites", arms[i].name,
                  blinks(1, k, 2, all_surveyed, &bad, 11, 0, 0) && blinks(1, k, 2, all_surveyed, &good, 0, 0, 0)
                  && blinks(1, k, 2, last_gap, &bad, 0, 0, 0));
        if (k >= 2)
            check("tip_stack_variance", arms[i].name,
                  varies(1, k, all_surveyed, &bad, 11, 0, 0, 0, 0.0)
                  && varies(1, k, all_surveyed, &good, 0, 0, numerator, 16, (double)numerator / 16.0)
                  && varies(1, k, last_gap, &bad, 0, 0, 0, 12, 0.0));
    }
}

/* Buffer i alone is handed with another length than 4. A code above 3, which is tested later, is there too. */
enum { MASK, FRAME, SUMS, SQUARES, LEAST, GREATEST, BUFFERS };
static const uint8_t lent_mask[5] = {0, 0, 4, 0, 0};
static const uint16_t lent_frame[5];

static uint64_t adds_lent(size_t width, size_t i, size_t length)
{
    size_t n[BUFFERS] = {4, 4, 4, 4, 4, 4};
    uint64_t at, above, count;
    struct stack of = no_frames;
    n[i] = length;
    return tip_stack_add(width, 2, 1, 1, lent_mask, n[MASK], lent_frame, n[FRAME], of.sums, n[SUMS], of.squares, n[SQUARES],
                         of.least, n[LEAST], of.greatest, n[GREATEST], &at, &above, &count);
}

static uint64_t varies_lent(size_t width, size_t i, size_t length)
{
    size_t n[BUFFERS] = {4, 4, 4, 4, 4, 4};
    uint64_t at, numerator, denominator;
    double variance;
    n[i] = length;
    return tip_stack_variance(width, 2, 1, 1, lent_mask, n[MASK], no_frames.sums, n[SUMS], no_frames.squares, n[SQUARES],
                              no_frames.least, n[LEAST], no_frames.greatest, n[GREATEST], &at, &numerator, &denominator, &variance);
}

static uint64_t blinks_lent(size_t width, size_t i, size_t length)
{
    size_t n[BUFFERS] = {4, 4, 4, 4, 4, 4};
    uint64_t at, count;
    n[i] = length;
    return tip_blinking_sites(width, 2, 1, 1, 1, lent_mask, n[MASK], no_frames.sums, n[SUMS], no_frames.squares, n[SQUARES],
                              no_frames.least, n[LEAST], no_frames.greatest, n[GREATEST], &at, &count);
}

static void stack_shapes(void)
{
    static const struct {
        const char *name;
        uint64_t (*lent)(size_t, size_t, size_t);
        int takes_frame;
    } calls[] = {{"tip_stack_add", adds_lent, 1}, {"tip_stack_variance", varies_lent, 0}, {"tip_blinking_sites", blinks_lent, 0}};
    static const char *const one_off[BUFFERS] = {
        "refused 4, mask one off", "refused 4, frame one off", "refused 4, sums one off",
        "refused 4, squares one off", "refused 4, least one off", "refused 4, greatest one off"};

    for (size_t c = 0; c < COUNT(calls); c++) {
        check(calls[c].name, "refused 1 before 4", calls[c].lent(3, MASK, 0) == 1 && calls[c].lent(130, SUMS, 0) == 1);
        for (size_t i = MASK; i < BUFFERS; i++)
            if (i != FRAME || calls[c].takes_frame)
                check(calls[c].name, one_off[i],
                      calls[c].lent(2, i, 3) == 4 && calls[c].lent(2, i, 5) == 4 && calls[c].lent(2, i, 4) == 5);
    }
}

/* ---- tip_pattern_vertical, tip_pattern_horizontal ---- */

typedef uint64_t (*pattern_call)(size_t, size_t, uint64_t, uint64_t, const uint8_t *, size_t, const uint32_t *, size_t,
                                 uint64_t *, uint64_t *, uint64_t *, uint64_t *, uint64_t *);

static int has_pattern(pattern_call call, size_t width, size_t height, const uint8_t *mask, const uint32_t *sums, uint64_t number,
                       uint64_t level, uint64_t level_under, uint64_t max, uint64_t max_under)
{
    uint64_t at = UNWRITTEN, got_level = UNWRITTEN, got_level_under = UNWRITTEN, got_max = UNWRITTEN, got_max_under = UNWRITTEN;
    size_t sites = width * height;
    return call(width, height, 1023, 1, mask, sites, sums, sites, &at, &got_level, &got_level_under, &got_max, &got_max_under) == number
        && at == 0 && got_level == level && got_level_under == level_under && got_max == max && got_max_under == max_under;
}

static void pattern(void)
{
    static const uint8_t surveyed[24];
    static uint8_t gap[24];
    static uint32_t columns[24], rows[24], dark_column[24], dark_row[24], dark_columns[24];

    gap[23] = 1;
    for (size_t i = 0; i < 24; i++) {
        columns[i] = i % 12 == 6 ? 110 : 100;
        rows[i] = i / 2 == 6 ? 110 : 100;
        dark_column[i] = i % 12 == 6 ? 90 : 100;
        dark_row[i] = i / 2 == 6 ? 90 : 100;
        dark_columns[i] = i % 12 == 5 || i % 12 == 6 ? 0 : 100;
    }
    check("tip_pattern_vertical", "K8", has_pattern(tip_pattern_vertical, 12, 2, surveyed, columns, 0, 800, 46047276, 200, 20460));
    check("tip_pattern_vertical", "K8, the column dark",
          has_pattern(tip_pattern_vertical, 12, 2, surveyed, dark_column, 0, 800, 46047276, 200, 20460));
    check("tip_pattern_vertical", "two dark columns",
          has_pattern(tip_pattern_vertical, 12, 2, surveyed, dark_columns, 0, 80000, 46047276, 1800, 20460));
    check("tip_pattern_vertical", "refused 8", has_pattern(tip_pattern_vertical, 12, 2, gap, columns, 8, 0, 0, 0, 0));
    check("tip_pattern_vertical", "refused 9", has_pattern(tip_pattern_vertical, 2, 12, surveyed, rows, 9, 0, 0, 0, 0));
    check("tip_pattern_horizontal", "K8 on its side", has_pattern(tip_pattern_horizontal, 2, 12, surveyed, rows, 0, 800, 46047276, 200, 20460));
    check("tip_pattern_horizontal", "K8 on its side, the row dark",
          has_pattern(tip_pattern_horizontal, 2, 12, surveyed, dark_row, 0, 800, 46047276, 200, 20460));
    check("tip_pattern_horizontal", "refused 9", has_pattern(tip_pattern_horizontal, 12, 2, surveyed, columns, 9, 0, 0, 0, 0));
    rows[0] = 1024;
    check("tip_pattern_horizontal", "refused 11", has_pattern(tip_pattern_horizontal, 2, 12, surveyed, rows, 11, 0, 0, 0, 0));
}

/* ---- tip_find_defects, tip_repair ---- */

/* 4 x 4, all 64 but the site at 5. */
static void lone_site(uint16_t frame[16], uint16_t sample)
{
    for (size_t i = 0; i < 16; i++) frame[i] = 64;
    frame[5] = sample;
}

/* Whether the codes of out are those of mask, but for code at `at`; 16 is nowhere. */
static int codes_are(const uint8_t out[16], const uint8_t mask[16], size_t at, uint8_t code)
{
    for (size_t i = 0; i < 16; i++)
        if (out[i] != (i == at ? code : mask[i])) return 0;
    return 1;
}

static int finds(uint64_t threshold, uint16_t sample, uint64_t number, uint64_t count, size_t found)
{
    static const uint8_t mask[16], kept[16] = {9, 9, 9, 9, 9, 9, 9, 9, 9, 9, 9, 9, 9, 9, 9, 9};
    uint8_t out[16];
    uint16_t frame[16];
    uint64_t at = UNWRITTEN, above = UNWRITTEN, got = UNWRITTEN;
    lone_site(frame, sample);
    for (size_t i = 0; i < 16; i++) out[i] = kept[i];
    return tip_find_defects(4, 4, 1023, threshold, mask, 16, frame, 16, out, 16, &at, &above, &got) == number
        && at == (number == 6 ? 5 : 0) && above == (number == 6) && got == count && codes_are(out, number ? kept : mask, found, 2);
}

/* Above full scale at 3, 9 and 15; the gap, the defect and the filled site hold more, site 12 is at full scale. */
static const uint8_t all_codes[16] = {0, 1, 2, 0, 0, 3, 0, 0, 0, 0, 0, 0, 0, 0, 0, 0};
static const uint16_t three_over[16] = {64, 65535, 65535, 1024, 64, 65535, 64, 64, 64, 1025, 64, 64, 1023, 64, 64, 4095};

static int refuses_to_find(const uint8_t mask[16], uint64_t number, uint64_t place, uint64_t over)
{
    uint8_t out_mask[16];
    uint64_t at = UNWRITTEN, above = UNWRITTEN, count = UNWRITTEN;
    for (size_t i = 0; i < 16; i++) out_mask[i] = 9;
    if (tip_find_defects(4, 4, 1023, 28, mask, 16, three_over, 16, out_mask, 16, &at, &above, &count) != number
        || at != place || above != over || count != 0) return 0;
    for (size_t i = 0; i < 16; i++)
        if (out_mask[i] != 9) return 0;
    return 1;
}

static int refuses_to_repair(const uint8_t mask[16], uint64_t number, uint64_t place, uint64_t over)
{
    uint8_t out_mask[16];
    uint16_t out[16];
    uint64_t at = UNWRITTEN, above = UNWRITTEN, filled = UNWRITTEN;
    for (size_t i = 0; i < 16; i++) out[i] = out_mask[i] = 9;
    if (tip_repair(4, 4, 1023, mask, 16, three_over, 16, out, 16, out_mask, 16, &at, &above, &filled) != number
        || at != place || above != over || filled != 0) return 0;
    for (size_t i = 0; i < 16; i++)
        if (out[i] != 9 || out_mask[i] != 9) return 0;
    return 1;
}

/* The defect at 5 beside neighbours 60 and 65 that are surveyed and gaps that hold 65535. */
static int repairs(void)
{
    static const uint8_t mask[16] = {1, 1, 1, 1, 1, 2, 1, 0, 1, 1, 1, 1, 1, 0, 1, 1};
    uint8_t out_mask[16];
    uint16_t frame[16], out[16];
    uint64_t at = UNWRITTEN, above = UNWRITTEN, filled = UNWRITTEN;
    for (size_t i = 0; i < 16; i++) frame[i] = 65535;
    frame[7] = 60;
    frame[13] = 65;
    if (tip_repair(4, 4, 1023, mask, 16, frame, 16, out, 16, out_mask, 16, &at, &above, &filled) != 0
        || at != 0 || above != 0 || filled != 1) return 0;
    for (size_t i = 0; i < 16; i++)
        if (out[i] != (i == 5 ? 63 : frame[i])) return 0;
    return codes_are(out_mask, mask, 5, 3);
}

static void sites(void)
{
    static const uint8_t bad_code_too[16] = {0, 1, 2, 0, 0, 3, 0, 0, 0, 0, 0, 0, 0, 0, 4, 0};

    check("tip_find_defects", "K6", finds(28, 102, 0, 1, 5));
    check("tip_find_defects", "K7", finds(28, 101, 0, 0, 16));
    check("tip_find_defects", "the like of K6 for 24", finds(24, 96, 0, 1, 5));
    check("tip_find_defects", "the like of K7 for 24", finds(24, 95, 0, 0, 16));
    check("tip_find_defects", "the default threshold", finds(0, 96, 0, 1, 5) && finds(0, 95, 0, 0, 16) && finds(0, 101, 0, 1, 5));
    check("tip_find_defects", "refused 3", finds(4096, 102, 3, 0, 16));
    check("tip_find_defects", "refused 5 at 14", refuses_to_find(bad_code_too, 5, 14, 0));
    check("tip_find_defects", "refused 6 at 5, 1 over", finds(28, 1024, 6, 0, 16));
    check("tip_find_defects", "refused 6 at 3, 3 over, beside all other codes", refuses_to_find(all_codes, 6, 3, 3));
    check("tip_repair", "the mean of 60 and 65, half rounded up", repairs());
    check("tip_repair", "refused 5 at 14", refuses_to_repair(bad_code_too, 5, 14, 0));
    check("tip_repair", "refused 6 at 3, 3 over, beside all other codes", refuses_to_repair(all_codes, 6, 3, 3));
}

/* ---- tip_defective_rows, tip_defective_columns ---- */

typedef uint64_t (*lines_call)(size_t, size_t, uint64_t, const uint8_t *, size_t, const uint16_t *, size_t, uint8_t *, size_t,
                               uint64_t *, uint64_t *);

/* All 100 but the site `at`, in a window with one side of 2; `marked` is the one mark, 36 where there is none. */
static int marks(lines_call call, size_t width, size_t height, size_t at, uint16_t sample, size_t marked)
{
    static const uint8_t mask[36];
    uint16_t frame[36];
    uint8_t out[36];
    uint64_t place = UNWRITTEN, over = UNWRITTEN;
    for (size_t i = 0; i < 36; i++) {
        frame[i] = i == at ? sample : 100;
        out[i] = 9;
    }
    if (call(width, height, 1023, mask, 36, frame, 36, out, 36, &place, &over) != 0 || place != 0 || over != 0) return 0;
    for (size_t i = 0; i < 36; i++)
        if (out[i] != (i == marked)) return 0;
    return 1;
}

/*
 * All surveyed and at full scale, but at 7, 20 and 31, one above it; the first `unsurveyed` sites have codes 1 to 3 in turn and hold
 * 65535. Site 31 has the code `last`.
 */
static int refuses_lines(lines_call call, size_t width, size_t height, size_t marks_len, size_t unsurveyed, uint8_t last,
                         uint64_t number, uint64_t place, uint64_t over)
{
    uint8_t mask[36], out[36];
    uint16_t frame[36];
    uint64_t at = UNWRITTEN, above = UNWRITTEN;
    for (size_t i = 0; i < 36; i++) {
        mask[i] = (uint8_t)(i == 31 ? last : i < unsurveyed ? i % 3 + 1 : 0);
        frame[i] = i < unsurveyed ? 65535 : i == 7 || i == 20 || i == 31 ? 1024 : 1023;
        out[i] = 9;
    }
    if (call(width, height, 1023, mask, width * height, frame, width * height, out, marks_len, &at, &above) != number
        || at != place || above != over) return 0;
    for (size_t i = 0; i < 36; i++)
        if (out[i] != 9) return 0;
    return 1;
}

static void lines(void)
{
    check("tip_defective_rows", "K9", marks(tip_defective_rows, 2, 18, 16, 103, 4));
    check("tip_defective_rows", "K10", marks(tip_defective_rows, 2, 18, 16, 102, 36));
    check("tip_defective_rows", "planes in turn", marks(tip_defective_rows, 2, 18, 17, 103, 13) && marks(tip_defective_rows, 2, 18, 18, 103, 22));
    check("tip_defective_rows", "refused 4", refuses_lines(tip_defective_rows, 2, 16, 31, 0, 0, 4, 0, 0));
    check("tip_defective_rows", "refused 5 at 31", refuses_lines(tip_defective_rows, 2, 18, 36, 0, 4, 5, 31, 0));
    check("tip_defective_rows", "refused 6 at 7, 3 over", refuses_lines(tip_defective_rows, 2, 18, 36, 0, 0, 6, 7, 3));
    check("tip_defective_rows", "refused 6 at 20, 2 over, beside all other codes", refuses_lines(tip_defective_rows, 2, 18, 36, 9, 0, 6, 20, 2));
    check("tip_defective_rows", "refused 6 at 7, 3 over, before 9", refuses_lines(tip_defective_rows, 2, 16, 32, 0, 0, 6, 7, 3));
    check("tip_defective_rows", "refused 9", refuses_lines(tip_defective_rows, 2, 16, 32, 32, 1, 9, 0, 0));
    check("tip_defective_columns", "K9 on its side", marks(tip_defective_columns, 18, 2, 8, 103, 4));
    check("tip_defective_columns", "refused 5 at 31", refuses_lines(tip_defective_columns, 18, 2, 36, 0, 4, 5, 31, 0));
    check("tip_defective_columns", "refused 6 at 7, 3 over", refuses_lines(tip_defective_columns, 18, 2, 36, 0, 0, 6, 7, 3));
    check("tip_defective_columns", "refused 6 at 20, 2 over, beside all other codes",
          refuses_lines(tip_defective_columns, 18, 2, 36, 9, 0, 6, 20, 2));
    check("tip_defective_columns", "refused 9", refuses_lines(tip_defective_columns, 16, 2, 32, 32, 1, 9, 0, 0));
}

/* ---- tip_colour_ratios ---- */

/* 64 x 48, each plane of one level: 100, 200, 300, 400 for the planes (0,0), (0,1), (1,0), (1,1). */
static uint16_t plane_level(size_t i) { return (uint16_t)(100 * (1 + i % 64 % 2 + 2 * (i / 64 % 2))); }

struct ratios {
    int64_t numerators[3];
    uint64_t denominators[3];
};

/* What is not surveyed holds 65535. */
static int has_ratios(size_t width, uint64_t full_scale, uint64_t black_level, uint64_t order, const uint8_t *mask,
                      uint64_t number, uint64_t place, uint64_t over, const struct ratios *ratios)
{
    static uint16_t frame[64 * 48];
    uint64_t at = UNWRITTEN, above = UNWRITTEN;
    struct ratios got = {{UNWRITTEN, UNWRITTEN, UNWRITTEN}, {UNWRITTEN, UNWRITTEN, UNWRITTEN}};
    for (size_t i = 0; i < 64 * 48; i++) frame[i] = mask[i] ? 65535 : plane_level(i);
    if (tip_colour_ratios(width, 48, full_scale, black_level, order, mask, width * 48, frame, width * 48, &at, &above,
                          &got.numerators[0], &got.denominators[0], &got.numerators[1], &got.denominators[1],
                          &got.numerators[2], &got.denominators[2]) != number || at != place || above != over) return 0;
    for (size_t i = 0; i < 3; i++)
        if (got.numerators[i] != ratios->numerators[i] || got.denominators[i] != ratios->denominators[i]) return 0;
    return 1;
}

static void colour_ratios(void)
{
    /* 768 sites in a centre: T(X) x 768 over T(Gr) x 768, R, B, Gb in turn. */
    static const struct ratios none, order_0 = {{50LL * 768 * 768, 350LL * 768 * 768, 250LL * 768 * 768},
                                                {150ULL * 768 * 768, 150ULL * 768 * 768, 150ULL * 768 * 768}};
    static const struct ratios order_1 = {{150LL * 768 * 768, 250LL * 768 * 768, 350LL * 768 * 768},
                                          {50ULL * 768 * 768, 50ULL * 768 * 768, 50ULL * 768 * 768}};
    /* The first three sites of plane (1,1), and one of (0,0), are not surveyed. */
    static uint8_t codes[64 * 48];
    const uint8_t *all = great_surveyed;

    codes[0] = codes[65] = 1;
    codes[67] = 2;
    codes[69] = 3;
    check("tip_colour_ratios", "order 0", has_ratios(64, 1023, 50, 0, all, 0, 0, 0, &order_0));
    check("tip_colour_ratios", "order 1", has_ratios(64, 1023, 50, 1, all, 0, 0, 0, &order_1));
    check("tip_colour_ratios", "refused 3", has_ratios(64, 300, 50, 4, all, 3, 0, 0, &none));
    check("tip_colour_ratios", "refused 6 at 65, 768 over", has_ratios(64, 300, 50, 0, all, 6, 65, 768, &none));
    check("tip_colour_ratios", "refused 6 at 71, 765 over, beside all other codes", has_ratios(64, 300, 50, 0, codes, 6, 71, 765, &none));
    check("tip_colour_ratios", "refused 9", has_ratios(62, 1023, 50, 0, all, 9, 0, 0, &none));
    check("tip_colour_ratios", "refused 10", has_ratios(64, 1023, 200, 0, codes, 10, 0, 0, &none));
    codes[3071] = 4;
    check("tip_colour_ratios", "refused 5 at 3071", has_ratios(64, 300, 50, 0, codes, 5, 3071, 0, &none));
}

/* ---- tip_shading_table, tip_shading_recode, tip_shading_judge ---- */

/* What the calls share, with room for 128 x 128, which has 84 entries, and one element over. */
static struct shaded {
    uint8_t mask[128 * 128 + 1];
    uint16_t frame[128 * 128 + 1];
    uint32_t totals[85], counts[85];
} shaded, shaded_before;

/* Every site surveyed, in the order R Gr / Gb B with R 164, Gr and Gb 264, B 114; a table that no call makes. */
static void set_shaded(size_t width)
{
    static const uint16_t levels[4] = {164, 264, 264, 114};
    for (size_t i = 0; i < COUNT(shaded.mask); i++) {
        shaded.mask[i] = 0;
        shaded.frame[i] = levels[i / width % 2 * 2 + i % width % 2];
    }
    for (size_t i = 0; i < COUNT(shaded.totals); i++) {
        shaded.totals[i] = (uint32_t)(0x80000000 + i);
        shaded.counts[i] = (uint32_t)(0x90000000 + i);
    }
}

/* Whether all is as before but for the table's first entries, so many of them. */
static int shaded_but_for(size_t entries)
{
    for (size_t i = 0; i < COUNT(shaded.mask); i++)
        if (shaded.mask[i] != shaded_before.mask[i] || shaded.frame[i] != shaded_before.frame[i]) return 0;
    for (size_t i = entries; i < COUNT(shaded.totals); i++)
        if (shaded.totals[i] != shaded_before.totals[i] || shaded.counts[i] != shaded_before.counts[i]) return 0;
    return 1;
}

struct shaded_call {
    const char *name;
    uint64_t number, place, over;
    size_t width, height;
    uint64_t full_scale;
    /* mask, frame, totals, counts */
    size_t lengths[4];
    size_t site;
    uint64_t code;
};

/* What a refusal leaves is told here too. */
static int answers_table(const struct shaded_call *of)
{
    uint64_t at = UNWRITTEN, above = UNWRITTEN;
    shaded_before = shaded;
    return tip_shading_table(of->width, of->height, of->full_scale, shaded.mask, of->lengths[0], shaded.frame, of->lengths[1],
                             shaded.totals, of->lengths[2], shaded.counts, of->lengths[3], &at, &above) == of->number
        && at == of->place && above == of->over && shaded_but_for(of->number ? 0 : of->lengths[2]);
}

/* A table with every length as it is needed. */
static int makes_table(size_t width, size_t height, uint64_t full_scale)
{
    size_t sites = width * height, entries = 4 * (width / 32 * (height / 24) + 1);
    struct shaded_call of = {"", 0, 0, 0, width, height, full_scale, {sites, sites, entries, entries}, 0, 0};
    return answers_table(&of);
}

/* Where it is accepted, the numbers are added, modulo 2^32, to both entries, or to the one that both are; all else is as before. */
static int answers_recode(const struct shaded_call *of, size_t block, size_t centre, uint32_t total, uint32_t count)
{
    uint64_t at = UNWRITTEN, above = UNWRITTEN;
    shaded_before = shaded;
    if (tip_shading_recode(of->width, of->height, of->full_scale, of->site, of->code, shaded.mask, of->lengths[0],
                           shaded.frame, of->lengths[1], shaded.totals, of->lengths[2], shaded.counts, of->lengths[3],
                           &at, &above) != of->number || at != of->place || above != of->over) return 0;
    if (of->number == 0) {
        shaded_before.mask[of->site] = (uint8_t)of->code;
        shaded_before.totals[block] += total;
        shaded_before.counts[block] += count;
        if (centre != block) {
            shaded_before.totals[centre] += total;
            shaded_before.counts[centre] += count;
        }
    }
    return shaded_but_for(0);
}

/* An accepted one, at 64 x 48 or 70 x 52, which have 20 entries each. */
static int recodes(size_t width, size_t height, size_t site, uint8_t code, size_t block, size_t centre, uint32_t total, uint32_t count)
{
    size_t sites = width * height;
    struct shaded_call of = {"", 0, 0, 0, width, height, 1023, {sites, sites, 20, 20}, site, code};
    return answers_recode(&of, block, centre, total, count);
}

/* The sites of a block of a plane at 64 x 48, from 0 to 191. */
static size_t block_site(size_t plane, size_t block, size_t i)
{
    size_t row = block / 2 * 12 + i / 16, column = block % 2 * 16 + i % 16;
    return (2 * row + plane / 2) * 64 + 2 * column + plane % 2;
}

static void set_block(size_t plane, size_t block, uint16_t sample)
{
    for (size_t i = 0; i < 192; i++) shaded.frame[block_site(plane, block, i)] = sample;
}

/* Whether the entries are those of planes of one level each, every site surveyed. */
static int even_table(size_t blocks, const uint32_t levels[4])
{
    for (size_t i = 0; i < 4 * (blocks + 1); i++) {
        uint32_t sites = i % (blocks + 1) == blocks ? 768 : 192;
        if (shaded.totals[i] != sites * levels[i / (blocks + 1)] || shaded.counts[i] != sites) return 0;
    }
    return 1;
}

static int has_entry(size_t entry, uint32_t total, uint32_t count)
{
    return shaded.totals[entry] == total && shaded.counts[entry] == count;
}

/* Sites of 70 x 52: a plane has 2 x 2 blocks, three columns and two rows over, and its centre begins at column 1 and row 1. */
#define IN_BLOCK 0                       /* plane (0,0): entry 0 */
#define IN_BOTH (3 * 70 + 2)             /* plane (1,0): entries 10 and 14 */
#define IN_CENTRE (2 * 70 + 65)          /* plane (0,1): entry 9 */
#define IN_NEITHER (51 * 70 + 69)        /* plane (1,1) */

/* Whether a sample that grows by 5 makes the two entries' totals grow by 5, and no other; 20 is no entry. */
static int counts_in(size_t site, size_t block, size_t centre)
{
    static uint32_t totals[20];
    set_shaded(70);
    if (!makes_table(70, 52, 1023)) return 0;
    for (size_t i = 0; i < 20; i++) totals[i] = shaded.totals[i];
    shaded.frame[site] += 5;
    if (!makes_table(70, 52, 1023)) return 0;
    for (size_t i = 0; i < 20; i++)
        if (shaded.totals[i] != totals[i] + (i == block || i == centre ? 5 : 0)) return 0;
    return 1;
}

static void shading_table(void)
{
    static const uint32_t colours[4] = {164, 264, 264, 114}, greatest[4] = {4095, 4095, 4095, 4095};
    /* Sites 9 and 2000 have codes above 3, site 12 and the last samples above full scale, the gap at 10 and the defect at 11 more. */
    static const struct shaded_call refused[] = {
        {"refused 1, width 130", 1, 0, 0, 130, 48, 1023, {3072, 3072, 20, 20}, 0, 0},
        {"refused 1, height SIZE_MAX", 1, 0, 0, 64, SIZE_MAX, 1023, {3072, 3072, 20, 20}, 0, 0},
        {"refused 1 before 2", 1, 0, 0, 63, 48, 0, {0, 0, 0, 0}, 0, 0},
        {"refused 2, full scale 0", 2, 0, 0, 64, 48, 0, {0, 0, 0, 0}, 0, 0},
        {"refused 2, full scale 4096", 2, 0, 0, 64, 48, 4096, {3072, 3072, 20, 20}, 0, 0},
        {"refused 4, mask one over", 4, 0, 0, 64, 48, 1023, {3073, 3072, 20, 20}, 0, 0},
        {"refused 4, frame one short", 4, 0, 0, 64, 48, 1023, {3072, 3071, 20, 20}, 0, 0},
        {"refused 4, totals one short", 4, 0, 0, 64, 48, 1023, {3072, 3072, 19, 20}, 0, 0},
        {"refused 4, totals one over", 4, 0, 0, 64, 48, 1023, {3072, 3072, 21, 20}, 0, 0},
        {"refused 4, counts one over", 4, 0, 0, 64, 48, 1023, {3072, 3072, 20, 21}, 0, 0},
        {"refused 4 before 9, 20 entries for 62 x 48", 4, 0, 0, 62, 48, 1023, {2976, 2976, 20, 20}, 0, 0},
        {"refused 5 at 9", 5, 9, 0, 64, 48, 1023, {3072, 3072, 20, 20}, 0, 0},
        {"refused 5 at 9, before 9", 5, 9, 0, 62, 48, 1023, {2976, 2976, 12, 12}, 0, 0},
    };
    static const struct shaded_call above[] = {
        {"refused 6 at 12, 2 over, beside other codes", 6, 12, 2, 64, 48, 1023, {3072, 3072, 20, 20}, 0, 0},
        {"refused 6 at 12, 1 over, before 9", 6, 12, 1, 62, 48, 1023, {2976, 2976, 12, 12}, 0, 0},
    };
    static const struct shaded_call small[] = {
        {"refused 9, 62 x 48", 9, 0, 0, 62, 48, 1023, {2976, 2976, 12, 12}, 0, 0},
        {"refused 9, 64 x 46", 9, 0, 0, 64, 46, 1023, {2944, 2944, 12, 12}, 0, 0},
        {"refused 9, 2 x 2", 9, 0, 0, 2, 2, 1023, {4, 4, 4, 4}, 0, 0},
    };
    const char *call = "tip_shading_table";

    set_shaded(64);
    check(call, "64 x 48", makes_table(64, 48, 1023) && even_table(4, colours));
    set_block(0, 0, 184);
    check(call, "the header's example", makes_table(64, 48, 1023) && has_entry(0, 192 * 184, 192) && has_entry(3, 192 * 164, 192)
          && has_entry(4, 768 * 169, 768) && has_entry(5, 192 * 264, 192));
    for (size_t i = 0; i < 64 * 48; i++) {
        shaded.mask[i] = (uint8_t)(i % 3 + 1);
        shaded.frame[i] = 65535;
    }
    shaded.mask[block_site(3, 2, 17)] = 0;
    shaded.frame[block_site(3, 2, 17)] = 1023;
    check(call, "one surveyed site, all else any number",
          makes_table(64, 48, 1023) && has_entry(17, 1023, 1) && has_entry(19, 1023, 1) && has_entry(0, 0, 0) && has_entry(15, 0, 0));
    for (size_t i = 0; i < COUNT(shaded.mask); i++) {
        shaded.mask[i] = 0;
        shaded.frame[i] = 4095;
    }
    check(call, "128 x 128, all at 4095", makes_table(128, 128, 4095) && even_table(20, greatest));
    check(call, "a site in a block alone", counts_in(IN_BLOCK, 0, 0));
    check(call, "a site in block and centre", counts_in(IN_BOTH, 10, 14));
    check(call, "a site in the centre alone", counts_in(IN_CENTRE, 9, 9));
    check(call, "a site in neither", counts_in(IN_NEITHER, 20, 20));

    set_shaded(64);
    shaded.mask[10] = 1;
    shaded.mask[11] = 2;
    shaded.mask[9] = 4;
    shaded.mask[2000] = 255;
    shaded.frame[10] = shaded.frame[11] = 65535;
    shaded.frame[8] = 1023;
    shaded.frame[12] = shaded.frame[3071] = 1024;
    for (size_t i = 0; i < COUNT(refused); i++) check(call, refused[i].name, answers_table(&refused[i]));
    shaded.mask[9] = shaded.mask[2000] = 0;
    for (size_t i = 0; i < COUNT(above); i++) check(call, above[i].name, answers_table(&above[i]));
    shaded.frame[12] = 0;
    for (size_t i = 0; i < COUNT(small); i++) check(call, small[i].name, answers_table(&small[i]));
}

/* All R of a block away with codes 1, 2 and 3 in turn, by recoding; then the table is the one made afresh. */
static int takes_block_away(size_t block)
{
    static uint32_t totals[20], counts[20];
    for (size_t i = 0; i < 192; i++)
        if (!recodes(64, 48, block_site(0, block, i), (uint8_t)(i % 3 + 1), block, 4,
                     -(uint32_t)shaded.frame[block_site(0, block, i)], UINT32_MAX)) return 0;
    for (size_t i = 0; i < 20; i++) {
        totals[i] = shaded.totals[i];
        counts[i] = shaded.counts[i];
    }
    if (!makes_table(64, 48, 1023)) return 0;
    for (size_t i = 0; i < 20; i++)
        if (!has_entry(i, totals[i], counts[i])) return 0;
    return has_entry(block, 0, 0);
}

static void shading_recode(void)
{
    /* Site 9 has the code 4; site 12 is surveyed and site 10 a gap, both with a sample above full scale. */
    static const struct shaded_call refused[] = {
        {"refused 1, height 130", 1, 0, 0, 64, 130, 1023, {3072, 3072, 20, 20}, 0, 1},
        {"refused 1 before 2", 1, 0, 0, 0, 48, 4096, {0, 0, 0, 0}, SIZE_MAX, 4},
        {"refused 2 before 3", 2, 0, 0, 64, 48, 0, {0, 0, 0, 0}, SIZE_MAX, 4},
        {"refused 3, site 3072", 3, 0, 0, 64, 48, 1023, {3072, 3072, 20, 20}, 3072, 1},
        {"refused 3, site SIZE_MAX, before 4", 3, 0, 0, 64, 48, 1023, {0, 0, 0, 0}, SIZE_MAX, 4},
        {"refused 4, mask one short", 4, 0, 0, 64, 48, 1023, {3071, 3072, 20, 20}, 0, 1},
        {"refused 4, mask short of the site", 4, 0, 0, 64, 48, 1023, {0, 3072, 20, 20}, 0, 1},
        {"refused 4, frame one over", 4, 0, 0, 64, 48, 1023, {3072, 3073, 20, 20}, 0, 1},
        {"refused 4, totals one short", 4, 0, 0, 64, 48, 1023, {3072, 3072, 19, 20}, 0, 1},
        {"refused 4, counts one over, before 5", 4, 0, 0, 64, 48, 1023, {3072, 3072, 20, 21}, 0, 4},
        {"refused 4 before 9", 4, 0, 0, 62, 48, 1023, {2976, 2976, 20, 20}, 0, 1},
        {"refused 5 at 9, the old code", 5, 9, 0, 64, 48, 1023, {3072, 3072, 20, 20}, 9, 0},
        {"refused 5 at 12, the new code, before 6", 5, 12, 0, 64, 48, 1023, {3072, 3072, 20, 20}, 12, 4},
        {"refused 5 at 0, code 256", 5, 0, 0, 64, 48, 1023, {3072, 3072, 20, 20}, 0, 256},
        {"refused 5 at 3071, code 2^64 - 1", 5, 3071, 0, 64, 48, 1023, {3072, 3072, 20, 20}, 3071, UINT64_MAX},
        {"refused 5 at 9, before 9", 5, 9, 0, 62, 48, 1023, {2976, 2976, 12, 12}, 9, 0},
        {"refused 6 at 12, surveyed before", 6, 12, 1, 64, 48, 1023, {3072, 3072, 20, 20}, 12, 2},
        {"refused 6 at 12, surveyed before and after", 6, 12, 1, 64, 48, 1023, {3072, 3072, 20, 20}, 12, 0},
        {"refused 6 at 10, surveyed after", 6, 10, 1, 64, 48, 1023, {3072, 3072, 20, 20}, 10, 0},
        {"refused 6 at 10, before 9", 6, 10, 1, 62, 48, 1023, {2976, 2976, 12, 12}, 10, 0},
        {"refused 9, 62 x 48", 9, 0, 0, 62, 48, 1023, {2976, 2976, 12, 12}, 0, 1},
        {"refused 9, 64 x 46", 9, 0, 0, 64, 46, 1023, {2944, 2944, 12, 12}, 0, 1},
    };
    const char *call = "tip_shading_recode";

    set_shaded(64);
    set_block(0, 0, 184);
    check(call, "the header's example", makes_table(64, 48, 1023) && recodes(64, 48, 0, 1, 0, 4, -(uint32_t)184, UINT32_MAX)
          && has_entry(0, 191 * 184, 191) && has_entry(4, 768 * 169 - 184, 767));
    check(call, "a gap becomes a defect", recodes(64, 48, 0, 2, 0, 4, 0, 0));
    check(call, "a defect stays one", recodes(64, 48, 0, 2, 0, 4, 0, 0));
    check(call, "and back", recodes(64, 48, 0, 0, 0, 4, 184, 1) && has_entry(0, 192 * 184, 192) && has_entry(4, 768 * 169, 768));
    check(call, "surveyed stays surveyed", recodes(64, 48, 0, 0, 0, 4, 0, 0));
    check(call, "a whole block, as made afresh", takes_block_away(0));

    set_shaded(64);
    for (size_t i = 0; i < 64 * 48; i++) {
        shaded.mask[i] = 255;
        shaded.frame[i] = 65535;
    }
    shaded.mask[65] = 1;
    check(call, "reads no other site", recodes(64, 48, 65, 3, 15, 19, 0, 0));
    shaded.frame[65] = 1023;
    check(call, "a sample at full scale", recodes(64, 48, 65, 0, 15, 19, 1023, 1));
    shaded.totals[15] = shaded.counts[15] = 0;
    shaded.totals[19] = shaded.counts[19] = UINT32_MAX;
    check(call, "modulo 2^32, below 0", recodes(64, 48, 65, 1, 15, 19, -(uint32_t)1023, UINT32_MAX) && has_entry(15, 4294966273, UINT32_MAX));
    shaded.totals[19] = shaded.counts[19] = UINT32_MAX;
    check(call, "modulo 2^32, above 2^32 - 1", recodes(64, 48, 65, 0, 15, 19, 1023, 1) && has_entry(15, 0, 0) && has_entry(19, 1022, 0));

    set_shaded(70);
    for (size_t i = 0; i < COUNT(shaded.frame); i++) shaded.frame[i] = 7;
    check(call, "a site in a block alone", recodes(70, 52, IN_BLOCK, 1, 0, 0, -(uint32_t)7, UINT32_MAX));
    check(call, "a site in block and centre", recodes(70, 52, IN_BOTH, 2, 10, 14, -(uint32_t)7, UINT32_MAX));
    check(call, "a site in the centre alone", recodes(70, 52, IN_CENTRE, 3, 9, 9, -(uint32_t)7, UINT32_MAX));
    check(call, "a site in neither", recodes(70, 52, IN_NEITHER, 1, 19, 19, 0, 0));

    set_shaded(64);
    shaded.mask[9] = 4;
    shaded.mask[10] = 1;
    shaded.frame[10] = 65535;
    shaded.frame[12] = 1024;
    for (size_t i = 0; i < COUNT(refused); i++) check(call, refused[i].name, answers_recode(&refused[i], 0, 0, 0, 0));
}

struct verdicts {
    uint64_t numerators[8], denominators[8];
    uint8_t refusals[8], fails[8];
};

/* What the four buffers hold before a call, one element over the 8 that 64 x 48 needs. */
#define NOT_JUDGED 99

/* Lengths: totals, counts, numerators, denominators, refusals, fails. */
static int answers_judge(size_t width, size_t height, uint64_t full_scale, uint64_t black_level, uint64_t order, uint64_t limit,
                         const size_t lengths[6], uint64_t number, const struct verdicts *verdicts)
{
    uint64_t at = UNWRITTEN, numerators[9], denominators[9];
    uint8_t refusals[9], fails[9];
    shaded_before = shaded;
    for (size_t i = 0; i < 9; i++) numerators[i] = denominators[i] = refusals[i] = fails[i] = NOT_JUDGED;
    if (tip_shading_judge(width, height, full_scale, black_level, order, limit, shaded.totals, lengths[0], shaded.counts, lengths[1],
                          numerators, lengths[2], denominators, lengths[3], refusals, lengths[4], fails, lengths[5], &at) != number
        || at != 0 || !shaded_but_for(0)) return 0;
    for (size_t i = 0; i < 9; i++) {
        int written = number == 0 && i < 8;
        if (numerators[i] != (written ? verdicts->numerators[i] : NOT_JUDGED)
            || denominators[i] != (written ? verdicts->denominators[i] : NOT_JUDGED)
            || refusals[i] != (written ? verdicts->refusals[i] : NOT_JUDGED)
            || fails[i] != (written ? verdicts->fails[i] : NOT_JUDGED)) return 0;
    }
    return 1;
}

static const size_t judge_lengths[6] = {20, 20, 8, 8, 8, 8};

static int judges(uint64_t black_level, uint64_t order, uint64_t limit, const struct verdicts *verdicts)
{
    return answers_judge(64, 48, 1023, black_level, order, limit, judge_lengths, 0, verdicts);
}

static int refuses_table(void)
{
    return answers_judge(64, 48, 1023, 64, 0, 1, judge_lengths, 11, 0);
}

/* c * b of a ratio with so many grey levels above black at the centre of R, or B, and in the block of Gr, or Gb, every site surveyed. */
#define UNDER(at_centre, in_block) (768ULL * 768 * (at_centre) * 192 * 192 * (in_block))
#define FOUR(x) (x), (x), (x), (x)

/* The tables, as frames. */
static void shading(void)
{
    static const struct verdicts even = {{0}, {FOUR(UNDER(100, 200)), FOUR(UNDER(50, 200))}, {0}, {0}};
    static const struct verdicts dark = {{0}, {0}, {10, 10, 10, 10, 10, 10, 10, 10}, {0}};
    /* A seventh, and a twenty-first. */
    static struct verdicts red = {
        {UNDER(15, 200), UNDER(5, 200), UNDER(5, 200), UNDER(5, 200)}, {FOUR(UNDER(105, 200)), FOUR(UNDER(50, 200))}, {0}, {1}};
    /* The same frame in another order: plane (0,0) is Gr, B or Gb. As a green it is an eighth off, and a twentieth. */
    static struct verdicts order_1 = {{UNDER(30, 100), UNDER(10, 100), UNDER(10, 100), UNDER(10, 100)},
                                      {UNDER(200, 120), UNDER(200, 100), UNDER(200, 100), UNDER(200, 100), FOUR(UNDER(200, 50))}, {0}, {1}};
    static const struct verdicts order_2 = {{0, 0, 0, 0, UNDER(15, 200), UNDER(5, 200), UNDER(5, 200), UNDER(5, 200)},
                                            {FOUR(UNDER(50, 200)), FOUR(UNDER(105, 200))}, {0}, {0, 0, 0, 0, 1}};
    static const struct verdicts order_3 = {{0, 0, 0, 0, UNDER(30, 100), UNDER(10, 100), UNDER(10, 100), UNDER(10, 100)},
                                            {FOUR(UNDER(200, 50)), UNDER(200, 120), UNDER(200, 100), UNDER(200, 100), UNDER(200, 100)},
                                            {0}, {0, 0, 0, 0, 1}};
    /* 576 sites are left at R's centre. */
    static const struct verdicts seven = {{0}, {100ULL * 576 * 768 * 200 * 192 * 192, 100ULL * 576 * 768 * 200 * 192 * 192, 0,
                                                100ULL * 576 * 768 * 200 * 192 * 192, FOUR(UNDER(50, 200))}, {0, 0, 7}, {0}};
    /* Gr has 150 at the centre: the other three are a quarter off. */
    static struct verdicts ten = {{UNDER(25, 200), 0, UNDER(25, 200), UNDER(25, 200)},
                                  {UNDER(100, 200), 0, UNDER(100, 200), UNDER(100, 200), FOUR(UNDER(50, 200))}, {0, 10}, {0}};
    /* R of the block at 14, so 50 below black; R's centre is 62.5 above it: |-50 - 62.5| over 62.5, and for the others 37.5. */
    static const struct verdicts below = {{UNDER(225, 100), UNDER(75, 100), UNDER(75, 100), UNDER(75, 100)},
                                          {FOUR(UNDER(125, 100)), FOUR(UNDER(50, 200))}, {0}, {1}};
    const char *call = "tip_shading_judge";

    set_shaded(64);
    check(call, "even colours: all numerators 0", makes_table(64, 48, 1023) && judges(64, 0, 1, &even));
    check(call, "a black level at full scale: 10 everywhere", judges(1023, 0, 16, &dark));
    check(call, "no R in a block, by recoding: 7 there alone", takes_block_away(2) && judges(64, 0, 1, &seven));
    set_shaded(64);
    set_block(0, 0, 184);
    check(call, "R at 184 in a block: fails at 2", makes_table(64, 48, 1023) && judges(64, 0, 2, &red));
    red.fails[0] = 0;
    check(call, "R at 184 in a block: passes at 3", judges(64, 0, 3, &red));
    check(call, "the same in order 1", judges(64, 1, 1, &order_1));
    order_1.fails[0] = 0;
    check(call, "an eighth off passes at 2", judges(64, 1, 2, &order_1));
    check(call, "the same in order 2", judges(64, 2, 2, &order_2));
    check(call, "the same in order 3", judges(64, 3, 1, &order_3));
    set_shaded(64);
    set_block(1, 1, 64);
    check(call, "Gr at 64 in a block: 10 there alone", makes_table(64, 48, 1023) && judges(64, 0, 4, &ten));
    ten.fails[0] = ten.fails[2] = ten.fails[3] = 1;
    check(call, "a quarter off fails at 3", judges(64, 0, 3, &ten));
    set_shaded(64);
    set_block(0, 0, 14);
    check(call, "R below black in a block", makes_table(64, 48, 1023) && judges(64, 0, 16, &below));
}

/* The even table with one centre as it is said: all four blocks of the one ratio are refused, from `first` on, and no other. */
static int centre_refused(size_t entry, uint32_t total, uint32_t count, size_t first, uint8_t number)
{
    struct verdicts verdicts = {{0}, {FOUR(UNDER(100, 200)), FOUR(UNDER(50, 200))}, {0}, {0}};
    for (size_t k = first; k < first + 4; k++) {
        verdicts.denominators[k] = 0;
        verdicts.refusals[k] = number;
    }
    set_shaded(64);
    if (!makes_table(64, 48, 1023)) return 0;
    shaded.totals[entry] = total;
    shaded.counts[entry] = count;
    return judges(64, 0, 1, &verdicts);
}

static void refused_centres(void)
{
    const char *call = "tip_shading_judge";

    check(call, "no surveyed R at the centre: 7", centre_refused(4, 0, 0, 0, 7));
    check(call, "no surveyed Gr at the centre: 7", centre_refused(9, 0, 0, 0, 7));
    check(call, "no surveyed Gb at the centre: 7", centre_refused(14, 0, 0, 4, 7));
    check(call, "no surveyed B at the centre: 7", centre_refused(19, 0, 0, 4, 7));
    check(call, "R at black at the centre: 10", centre_refused(4, 64 * 768, 768, 0, 10));
    check(call, "Gr at black at the centre: 10", centre_refused(9, 64 * 768, 768, 0, 10));
    check(call, "Gb at black at the centre: 10", centre_refused(14, 64 * 768, 768, 4, 10));
    check(call, "B at black at the centre: 10", centre_refused(19, 64 * 768, 768, 4, 10));
}

static void refused_shading(void)
{
    static const struct {
        const char *name;
        uint64_t number;
        size_t width, height;
        uint64_t full_scale, black_level, order, limit;
        size_t lengths[6];
    } refused[] = {
        {"refused 1, width 63, before 2", 1, 63, 48, 0, 64, 0, 1, {0, 0, 0, 0, 0, 0}},
        {"refused 1, both SIZE_MAX", 1, SIZE_MAX, SIZE_MAX, 1023, 64, 0, 1, {20, 20, 8, 8, 8, 8}},
        {"refused 2, before 3", 2, 64, 48, 0, 64, 4, 0, {20, 20, 8, 8, 8, 8}},
        {"refused 3, black level above full scale", 3, 64, 48, 1023, 1024, 0, 1, {20, 20, 8, 8, 8, 8}},
        {"refused 3, order 4", 3, 64, 48, 1023, 64, 4, 1, {20, 20, 8, 8, 8, 8}},
        {"refused 3, limit 0", 3, 64, 48, 1023, 64, 0, 0, {20, 20, 8, 8, 8, 8}},
        {"refused 3, limit 17, before 4", 3, 64, 48, 1023, 64, 0, 17, {0, 0, 0, 0, 0, 0}},
        {"refused 4, totals one short", 4, 64, 48, 1023, 64, 0, 1, {19, 20, 8, 8, 8, 8}},
        {"refused 4, counts one over", 4, 64, 48, 1023, 64, 0, 1, {20, 21, 8, 8, 8, 8}},
        {"refused 4, numerators one short", 4, 64, 48, 1023, 64, 0, 1, {20, 20, 7, 8, 8, 8}},
        {"refused 4, denominators one over", 4, 64, 48, 1023, 64, 0, 1, {20, 20, 8, 9, 8, 8}},
        {"refused 4, refusals one short", 4, 64, 48, 1023, 64, 0, 1, {20, 20, 8, 8, 7, 8}},
        {"refused 4, fails one over", 4, 64, 48, 1023, 64, 0, 1, {20, 20, 8, 8, 8, 9}},
        {"refused 4 before 9", 4, 62, 48, 1023, 64, 0, 1, {20, 20, 8, 8, 8, 8}},
        {"refused 9, 62 x 48", 9, 62, 48, 1023, 64, 0, 1, {12, 12, 4, 4, 4, 4}},
        {"refused 9, 64 x 46", 9, 64, 46, 1023, 64, 0, 1, {12, 12, 4, 4, 4, 4}},
        {"refused 9, 2 x 2", 9, 2, 2, 1023, 64, 0, 1, {4, 4, 0, 0, 0, 0}},
        {"refused 11", 11, 64, 48, 1023, 64, 0, 1, {20, 20, 8, 8, 8, 8}},
    };
    static const struct verdicts none = {{0}, {0}, {7, 7, 7, 7, 7, 7, 7, 7}, {0}};
    const char *call = "tip_shading_judge";

    /* what no samples can leave, by totals and by counts, so that 11 stands behind all others */
    set_shaded(64);
    shaded.counts[0] = 0;
    for (size_t i = 0; i < COUNT(refused); i++)
        check(call, refused[i].name,
              answers_judge(refused[i].width, refused[i].height, refused[i].full_scale, refused[i].black_level, refused[i].order,
                            refused[i].limit, refused[i].lengths, refused[i].number, 0));

    for (size_t i = 0; i < 20; i++) shaded.totals[i] = shaded.counts[i] = 0;
    check(call, "no surveyed site: 7 everywhere", judges(64, 0, 1, &none));
    shaded.counts[12] = 193;
    check(call, "refused 11, a count of 193, before 7", refuses_table());
    shaded.counts[12] = 0;
    shaded.counts[19] = 769;
    check(call, "refused 11, a centre's count of 769", refuses_table());
    shaded.counts[19] = 0;
    shaded.totals[0] = 1;
    check(call, "refused 11, a total of no site", refuses_table());
    shaded.totals[0] = 0;
    shaded.counts[3] = 192;
    shaded.totals[3] = 192 * 1023;
    check(call, "192 sites at full scale: 7 everywhere", judges(64, 0, 1, &none));
    shaded.totals[3]++;
    check(call, "refused 11, one above that", refuses_table());
    shaded.totals[3] = shaded.counts[3] = UINT32_MAX;
    check(call, "refused 11, the greatest numbers", refuses_table());
}

/* ---- tip_photon_transfer ---- */

struct gain {
    int64_t numerator;
    uint64_t denominator;
    double slope;
    uint64_t saturation;
};

static int has_gain(const tip_point *points, size_t len, size_t first, size_t last, uint64_t number, const struct gain *gain)
{
    uint64_t at = UNWRITTEN;
    struct gain got = {UNWRITTEN, UNWRITTEN, UNWRITTEN, UNWRITTEN};
    return tip_photon_transfer(points, len, first, last, &at, &got.numerator, &got.denominator, &got.slope, &got.saturation) == number
        && at == 0 && got.numerator == gain->numerator && got.denominator == gain->denominator
        && bits(got.slope) == bits(gain->slope) && got.saturation == gain->saturation;
}

/* Four points, the one at `at` out of limits. */
static int refuses_point(size_t at, uint64_t mean, uint64_t variance, size_t first, size_t last)
{
    static const struct gain none;
    tip_point points[4] = {{0, 1, 5}, {0, 2, 6}, {0, 3, 7}, {0, 4, 8}};
    points[at].mean = mean;
    points[at].variance = variance;
    return has_gain(points, 4, first, last, 3, &none);
}

/* Half of 64 points at 0 and 0, half at this mean and variance: the numerator is 1024 * mean * variance, falling or not. */
static int has_halves(uint64_t mean, uint64_t variance, int falling, uint64_t number, const struct gain *gain)
{
    tip_point points[64];
    for (size_t i = 0; i < 64; i++) {
        points[i].exposure = i;
        points[i].mean = i < 32 ? 0 : mean;
        points[i].variance = (i < 32) == falling ? variance : 0;
    }
    return has_gain(points, 64, 0, 63, number, gain);
}

/* From 1 to 4 the line y = 2 * x. The greatest variance stands twice, outside these. */
static const tip_point line[7] = {{9, 7, 900}, {5, 0, 0}, {5, 100, 200}, {0, 200, 400}, {UINT64_MAX, 300, 600}, {1, 7, 900}, {1, 7, 1}};

static void gains(void)
{
    static const tip_point header[5] = {{1, 1600, 840}, {2, 3200, 1640}, {4, 6400, 3240}, {8, 12800, 6440}, {16, 16368, 90}};
    static const tip_point tied[3] = {{1, 0, 3}, {2, 1, 4}, {3, 2, 4}}, falling[3] = {{1, 0, 2}, {2, 1, 0}, {3, 3, 0}};
    static const tip_point level[3] = {{1, 0, 7}, {2, 65520, 7}, {3, 9, 7}}, limits[2] = {{0, 0, 0}, {UINT64_MAX, 65520, 268435456}};
    static tip_point diagonal[64];
    static const struct gain from_header = {17920000, 35840000, 0.5, 3}, twice = {400000, 200000, 2.0, 0}, tie = {3, 6, 0.5, 1},
        fall = {-8, 14, -8.0 / 14.0, 0}, flat = {0, 8584561602, 0.0, 0}, steep = {17587891077120, 4292870400, 268435456.0 / 65520.0, 1},
        count = {1397760, 1397760, 1.0, 63},
        greatest = {9007199221186560, 1099511627776, 8192.0 - 1.0 / 32768.0, 32},
        least = {-9007199221186560, 1099511627776, 1.0 / 32768.0 - 8192.0, 0};
    const char *call = "tip_photon_transfer";

    for (size_t i = 0; i < COUNT(diagonal); i++) diagonal[i].mean = diagonal[i].variance = i;
    check(call, "the header's example", has_gain(header, 5, 0, 2, 0, &from_header));
    check(call, "a line, greatest variance outside the chosen", has_gain(line, 7, 1, 4, 0, &twice));
    check(call, "greatest variance at a tie", has_gain(tied, 3, 0, 2, 0, &tie));
    check(call, "a falling line", has_gain(falling, 3, 0, 2, 0, &fall));
    check(call, "a level line", has_gain(level, 3, 0, 2, 0, &flat));
    check(call, "two points at the limits", has_gain(limits, 2, 0, 1, 0, &steep));
    check(call, "64 points", has_gain(diagonal, 64, 0, 63, 0, &count));
    check(call, "a numerator 2^25 below 2^53", has_halves(32768, 268435455, 0, 0, &greatest));
    check(call, "the same falling", has_halves(32768, 268435455, 1, 0, &least));
}

static void refused_gains(void)
{
    static const tip_point upright[3] = {{1, 5, 0}, {2, 5, 268435456}, {3, 5, 6}};
    static tip_point many[65];
    static const struct gain none;
    const char *call = "tip_photon_transfer";

    for (size_t i = 0; i < COUNT(many); i++) many[i].mean = many[i].variance = i;
    check(call, "refused 3, no point", has_gain(many, 0, 0, 0, 3, &none));
    check(call, "refused 3, 65 points", has_gain(many, 65, 0, 63, 3, &none));
    check(call, "refused 3, last is the length", has_gain(many, 64, 0, 64, 3, &none));
    check(call, "refused 3, both ends the length, before 7", has_gain(many, 64, 64, 64, 3, &none));
    check(call, "refused 3, last SIZE_MAX", has_gain(many, 64, 0, SIZE_MAX, 3, &none));
    check(call, "refused 3, both ends SIZE_MAX", has_gain(many, 64, SIZE_MAX, SIZE_MAX, 3, &none));
    check(call, "refused 3, ends reversed", has_gain(many, 64, 1, 0, 3, &none));
    check(call, "refused 3, a chosen mean above its limit", refuses_point(1, 65521, 6, 0, 1));
    check(call, "refused 3, a chosen variance above its limit", refuses_point(1, 2, 268435457, 0, 1));
    check(call, "refused 3, a mean above its limit after the chosen", refuses_point(3, 65521, 8, 0, 2));
    check(call, "refused 3, a variance above its limit before the chosen", refuses_point(0, 1, UINT64_MAX, 1, 3));
    check(call, "refused 3, a mean above its limit, before 7", refuses_point(0, UINT64_MAX, 5, 2, 2));
    check(call, "refused 7", has_gain(many, 64, 63, 63, 7, &none));
    check(call, "refused 13", has_gain(upright, 3, 0, 2, 13, &none));
    check(call, "refused 13, another mean that is not chosen", has_gain(line, 7, 5, 6, 13, &none));
    check(call, "refused 14, halves at the limits", has_halves(65520, 268435456, 0, 14, &none));
    check(call, "refused 14, a numerator of 2^53", has_halves(32768, 268435456, 0, 14, &none));
    check(call, "refused 14, one of -2^53", has_halves(32768, 268435456, 1, 14, &none));
}

/* ---- tip_job ---- */

/* The stream of K1, and a byte over. */
static const uint8_t k1_stream[47] = {
    1, 0, 2, 0, 2, 2, 0, 2, 0, 2, 3, 0, 2, 3, 255, 4, 0, 2, 0, 64, 5, 0, 4, 0, 0, 0, 0,
    6, 0, 5, 25, 25, 25, 25, 228, 7, 0, 5, 25, 25, 25, 26, 37, 0, 0, 0, 0};

static int answers_job(const uint8_t *input, size_t len, uint64_t number, uint64_t place, uint64_t over,
                       uint64_t sites, uint64_t p, uint64_t q, uint64_t r, int64_t dark)
{
    uint64_t at = UNWRITTEN, above = UNWRITTEN, got_sites = UNWRITTEN, got_p = UNWRITTEN, got_q = UNWRITTEN, got_r = UNWRITTEN;
    int64_t got_dark = UNWRITTEN;
    return tip_job(input, len, &at, &above, &got_sites, &got_p, &got_q, &got_r, &got_dark) == number
        && at == place && above == over && got_sites == sites && got_p == p && got_q == q && got_r == r && got_dark == dark;
}

/* K1 with another full scale, and a code at site 3, where its samples are the greatest. */
static int refuses_job(uint8_t full_scale, uint8_t code, uint64_t number, uint64_t place, uint64_t over)
{
    uint8_t stream[46];
    for (size_t i = 0; i < 46; i++) stream[i] = k1_stream[i];
    stream[13] = 0;
    stream[14] = full_scale;
    stream[26] = code;
    return answers_job(stream, 46, number, place, over, 0, 0, 0, 0, 0);
}

static void job(void)
{
    static const uint8_t other_tag[1] = {2}, other_length[3] = {1, 0, 3};
    static const uint8_t wide[10] = {1, 0, 2, 0, 66, 2, 0, 2, 0, 2};

    check("tip_job", "K1", answers_job(k1_stream, 46, 0, 0, 0, 4, 4, 32, 90, 150));
    check("tip_job", "refused 5 at 3", refuses_job(101, 4, 5, 3, 0));
    check("tip_job", "refused 6 at 3, 1 over", refuses_job(103, 0, 6, 3, 1));
    check("tip_job", "refused 6 at 2, 4 over, of both frames", refuses_job(101, 0, 6, 2, 4));
    check("tip_job", "refused 6 at 2, 2 over, beside each other code",
          refuses_job(101, 1, 6, 2, 2) && refuses_job(101, 2, 6, 2, 2) && refuses_job(101, 3, 6, 2, 2));
    check("tip_job", "refused 20 at 0, no input", answers_job(k1_stream, 0, 20, 0, 0, 0, 0, 0, 0, 0));
    check("tip_job", "refused 20 at 35, cut in field 7", answers_job(k1_stream, 42, 20, 35, 0, 0, 0, 0, 0, 0));
    check("tip_job", "refused 21", answers_job(other_tag, 1, 21, 0, 0, 0, 0, 0, 0, 0));
    check("tip_job", "refused 22", answers_job(other_length, 3, 22, 0, 0, 0, 0, 0, 0, 0));
    check("tip_job", "refused 23 at 46", answers_job(k1_stream, 47, 23, 46, 0, 0, 0, 0, 0, 0));
    check("tip_job", "refused 24", answers_job(wide, 10, 24, 0, 0, 0, 0, 0, 0, 0));
}

/* ---- all calls ---- */

int main(void)
{
    static void (*const calls[])(void) = {
        unpack_raw10,
        pair,
        dark_level,
        stack_add,
        stack_variance,
        blinking_sites,
        impossible_stacks,
        stack_shapes,
        pattern,
        sites,
        lines,
        colour_ratios,
        shading_table,
        shading_recode,
        shading,
        refused_centres,
        refused_shading,
        gains,
        refused_gains,
        job,
    };

    for (size_t i = 0; i < COUNT(calls); i++) calls[i]();
    printf("%lu checks, %lu failed\n", checks, failures);
    return failures != 0;
}
