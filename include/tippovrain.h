/*
 * Tippovrain: a camera bench. Figures of noise, dark level, pattern, blinking sites, defects, colour and colour shading
 * from raw Bayer windows that the caller lends, and the gain from a list of such figures at several exposures. It
 * allocates nothing, keeps nothing between two calls, prints nothing, and each call ends on any input. Calls may run at
 * the same time, so long as none writes what another one is lent.
 *
 * Linking. libtippovrain.a is x86-64 code and needs nothing but the C library:
 *
 *   cc mine.c $(pkg-config --cflags --libs tippovrain)
 *
 * (where it was installed below a PREFIX of your own: PKG_CONFIG_PATH=PREFIX/lib/pkgconfig).
 *
 * A worked example: the noise of two frames, four sites wide and two high, samples of 10 bits, with a gap at site 5.
 *
 *   #include <stdio.h>
 *   #include <tippovrain.h>
 *
 *   int main(void)
 *   {
 *       const uint8_t mask[8] = {0, 0, 0, 0, 0, 1, 0, 0};
 *       const uint16_t first[8] = {100, 101, 102, 103, 100, 65535, 102, 103};
 *       const uint16_t second[8] = {101, 101, 102, 104, 100, 65535, 103, 103};
 *       uint64_t refusal, place, over, n, p, q, r;
 *       double variance, noise;
 *
 *       refusal = tip_pair_figures(4, 2, 1023, mask, 8, first, 8, second, 8,
 *                                  &place, &over, &n, &p, &q, &r, &variance, &noise);
 *       if (refusal != 0) {
 *           fprintf(stderr, "refused %d at %d", (int)refusal, (int)place);
 *           if (refusal == 6) fprintf(stderr, " count %d", (int)over);
 *           fprintf(stderr, "\n");
 *           return 1;
 *       }
 *       printf("noise %f grey levels over %d sites\n", noise, (int)n);
 *       return 0;
 *   }
 *
 * It prints 'noise 0.348214 grey levels over 7 sites'. With 0 for the gap's code it would say
 * 'refused 6 at 5 count 2': by the table below, the sample at site 5 is above full scale, here in both frames.
 *
 * Words, units and ranges, the same in every call:
 *  - A window is row by row. Its sides, width and height, are counted in sites, each even and from 2 to 128.
 *  - A site is a place of a window, numbered from 0 in row order: row y, column x is site y * width + x.
 *  - A sample is 16 bits, in grey levels: 0 to full_scale at a surveyed site, any number at any other.
 *  - full_scale, the greatest sample that a surveyed site may have, is 1 to 4095 grey levels.
 *  - A mask has a code for each site: 0 surveyed (its sample counts), 1 gap (nothing was seen there), 2 defect (found
 *    bad), 3 filled (a defect that repair gave a sample). Only samples, and numbers of a stack, at code 0 are read for
 *    a figure, a verdict or a refusal; at any other code they may be any number. To tip_shading_recode a site is
 *    surveyed where its old or its new code is 0.
 *  - A stack is a count of frames and, for each site, four numbers of its samples in them: their sum, the sum of their
 *    squares, the least and the greatest. See stacks of frames, below.
 *  - The spread of a site of a stack is its greatest sample less its least, in grey levels. A surveyed site is blinking
 *    where its spread is at least the number that the caller asks for.
 *  - A plane is the sites of one row parity and one column parity. There are four, each width / 2 by height / 2:
 *    (0,0), (0,1), (1,0), (1,1), the row's parity first.
 *  - A block is 16 columns and 12 rows of a plane, a centre the middle 32 columns and 24 rows of one. A table has for
 *    each a total of samples and a count of sites: see colour shading, below.
 *  - A point is what was measured at one exposure: a mean, in sixteenths of a grey level, 0 to 65520, and a variance,
 *    in sixteenths of a grey level squared, 0 to 2^28. It is a tip_point. A list has 1 to 64 points, numbered from 0.
 *  - A buffer is a pointer and a length. The length counts elements, not bytes, and must be exactly what is said. Only
 *    a list of points, of 1 to 64, and a stream, of any length, have no one length.
 *
 * Conventions of every call:
 *  - The result is the refusal's number, 0 where the call is accepted.
 *  - Every other number of the answer goes through a pointer of its own, which is written on EVERY call. On a
 *    refusal it gets 0, a double in every bit, but for place, and for over where the refusal is 6; where the call is
 *    accepted, place and over get 0.
 *  - On a refusal every lent buffer stays as it was, to the last byte.
 *  - Any value of a parameter's type may be handed in, sides and lengths included: what is out of range is refused.
 *  - Where a figure is two whole numbers, numerator over denominator, they are not reduced, and in an accepted call
 *    the denominator is above 0. Where tip_shading_judge refuses one block and ratio, both are 0 there.
 *
 * The caller's fault, and not tested for:
 *  - a NULL or misaligned pointer. An empty buffer needs a pointer too, any that is neither;
 *  - a length beyond the memory that the pointer leads to;
 *  - a buffer that the call writes and that overlaps another buffer, or a pointer for a number, place and over among
 *    them, that overlaps a buffer or another such pointer. Two buffers that are only read may be one.
 *
 * Refusals. They are tested in ascending number, and the first that applies is given; each call names the ones it
 * tests. tip_colour_ratios and tip_job have another order, and say so. In tip_shading_judge 7 and 10 come after 11:
 * they are not its result, but stand in a buffer, each for one block and ratio, and the call is accepted.
 *
 *   no.  given when
 *    1   a side is odd or not in 2..128
 *    2   the full scale is not in 1..4095
 *    3   another parameter is out of range: black level above full scale, threshold above 4095, Bayer order above 3,
 *        frame count above 100 (or 0 in the stack variance, blinking sites and pattern noise), a spread not in 1..4095,
 *        a limit of shading not in 1..16, a site to recode outside the window. In photon transfer: the list is empty or
 *        has more than 64 points, a point of it, chosen or not, is out of limits, or first and last are outside the
 *        list or reversed
 *    4   a lent buffer's length is not exactly the one needed
 *    5   a mask code is above 3; in tip_shading_recode the site's old or new one
 *    6   a surveyed sample is above full scale; in tip_shading_recode the site's, where its old or its new code is 0.
 *        over says how many are
 *    7   too few: fewer than 2 surveyed sites (pair), none (dark level, stack variance, a plane's centre in colour
 *        ratios; in colour shading a block or a centre of one of the ratio's two planes), fewer than 2 frames (stack
 *        variance), or fewer than 2 chosen points (photon transfer)
 *    8   pattern noise, and some mask code is not 0
 *    9   the window is too small for the test: pattern noise needs 12 columns (vertical) or rows (horizontal),
 *        defective rows 18 rows, defective columns 18 columns, colour ratios and shading a width of 64 and a height
 *        of 48
 *   10   T, total - black_level * count, is not above 0: of Gr in colour ratios; in colour shading of Gr, or for B/Gb
 *        of Gb, in the block or at the centre, or of R, or for B/Gb of B, at the centre
 *   11   a stack cannot come from its frame count: stacks of frames, below, says when; in pattern noise a sum is above
 *        frame count * full scale; in colour shading a count of the table is above its sites, or a total above count *
 *        full scale
 *   12   a frame is offered to a stack of 100
 *   13   photon transfer, and all chosen means are equal
 *   14   photon transfer, and numerator or denominator is 2^53 or more in size
 *   20   a stream ends inside a field or before it
 *   21   a field of a stream has another tag than the next due
 *   22   a field of a stream has the wrong length
 *   23   bytes follow the last field of a stream
 *   24   a side of a stream's window is above 64
 *
 * The place of 5 and 6 is the first offending site, as its number in its own frame, and in tip_shading_recode the site
 * that is recoded; of 20 to 23 an offset in the stream, in bytes from 0; of any other refusal it is 0. A 6 of two
 * frames is the first frame's where the first's sample at that site is above full scale, else the second's.
 *
 * Every call that can give 6 writes over. Of a 6 it is how many surveyed samples are above full scale, in all frames
 * of the call, wherever the place is: 1 to width * height, and with two frames up to twice that. Of any other refusal,
 * and where the call is accepted, it is 0. A sample at full scale is not counted, nor is one at a site that is not
 * surveyed. One hot site gives 1, or with two frames 2; a wrong exposure or a wrong full_scale gives many.
 * tip_shading_recode reads one site, so of its 6 over is 1.
 */
#ifndef TIPPOVRAIN_H
#define TIPPOVRAIN_H

#include <stddef.h>
#include <stdint.h>

#ifdef __cplusplus
extern "C" {
#endif

/*
 * Unpacks RAW10 (MIPI CSI-2): four samples of 10 bits in five bytes. The first four bytes are the upper eight bits
 * of each sample; the fifth holds the lower two, the first sample's in bits 1..0, the fourth's in bits 7..6. Rows
 * follow each other with no padding, so a group of four may run on into the next row.
 *
 *   width, height   sites, each even and from 2 to 128
 *   bytes           width * height * 5 / 4 packed bytes, only read
 *   out             width * height samples, each written: grey levels, 0 to 1023
 *   place           written: 0
 *
 * Refusals, in the order tested: 1; 4 (bytes or out).
 *
 *   const uint8_t bytes[5] = {25, 25, 25, 25, 228};
 *   uint16_t out[4];
 *   uint64_t place;
 *   tip_unpack_raw10(2, 2, bytes, 5, out, 4, &place);    gives 0, and out is 100 101 102 103
 */
uint64_t tip_unpack_raw10(size_t width, size_t height,
                          const uint8_t *bytes, size_t bytes_len,
                          uint16_t *out, size_t out_len,
                          uint64_t *place);

/*
 * The figures of a pair of frames: the variance, in grey levels squared, and the noise, its root, in grey levels.
 * EMVA 1288, release 3 form, in which the mean difference is taken off. d is second minus first at a surveyed site
 * (mask code 0).
 *
 *   full_scale   grey levels, 1 to 4095
 *   mask         width * height codes, only read: 0 surveyed, 1 gap, 2 defect, 3 filled
 *   first,       width * height samples each, only read; a sample at any code but 0 may be any number, and changes
 *   second       nothing. Both may be one buffer: p is then 0, and over counts each of its samples twice
 *   place        written: the first offending site for 5 and 6, else 0
 *   over         written: for 6 how many surveyed samples of both frames are above full_scale, 1 to 2 * width * height;
 *                else 0
 *   n            written: the count of surveyed sites, 2 to 16384
 *   p            written: n * (sum of d * d) - (sum of d) * (sum of d), 0 to the square of n * full_scale. It is 0
 *                exactly where all d are equal. Like q it is below 2^53, so exact as a double
 *   q            written: 2 * n * n, 8 to 2^29: the exact variance is p / q grey levels squared
 *   r            written: the greatest whole number with r * r <= 2048 * p, 0 to 3036259044
 *   variance     written: p / q, rounded once, so off by at most one part in 2^52; grey levels squared, 0 to
 *                full_scale * full_scale / 2
 *   noise        written: r / (64 * n), rounded once; grey levels, 0 to 0.7072 * full_scale. 32 * n * noise is at most
 *                1 from the root of 512 * p, and noise is 0 where p is
 *
 * These are the ranges of an accepted call; on a refusal all six numbers are 0.
 *
 * Cameras may be sorted by the variance or the noise of accepted calls; a refused call's 0 is no figure, so leave it
 * out. Neither is ever a NaN, infinite or -0. With equal n, a greater p / q never gets a smaller variance or noise, and
 * equal ones get the same six numbers, bit for bit. With unequal n this holds of the variance alone: do not compare
 * noise then. Exchanging first and second changes no number of an accepted call. Nor does one constant added to every
 * surveyed sample of one frame, or taken off, if none of them leaves 0 to full_scale.
 *
 * Refusals, in the order tested: 1; 2; 4 (mask, first or second); 5; 6 (all sites of first, then all of second);
 * 7 (fewer than 2 surveyed sites).
 *
 *   const uint8_t mask[4] = {0, 0, 0, 0};
 *   const uint16_t first[4] = {100, 101, 102, 103}, second[4] = {101, 101, 102, 104};
 *   uint64_t place, over, n, p, q, r;
 *   double variance, noise;
 *   tip_pair_figures(2, 2, 1023, mask, 4, first, 4, second, 4, &place, &over, &n, &p, &q, &r, &variance, &noise);
 *                                       gives 0, and n is 4, p 4, q 32, r 90, variance 0.125, noise 0.3515625
 *
 *   With full_scale 101 it gives 6, place is 2 and over 4: sites 2 and 3 of both frames.
 */
uint64_t tip_pair_figures(size_t width, size_t height, uint64_t full_scale,
                          const uint8_t *mask, size_t mask_len,
                          const uint16_t *first, size_t first_len,
                          const uint16_t *second, size_t second_len,
                          uint64_t *place, uint64_t *over, uint64_t *n, uint64_t *p, uint64_t *q, uint64_t *r,
                          double *variance, double *noise);

/*
 * The dark level, in grey levels: (sum - black_level * n) / n, with the sum of the samples at the n surveyed sites
 * (mask code 0), as two whole numbers, unreduced. It is signed: the numerator is below 0 where the mean is below black.
 *
 *   full_scale    grey levels, 1 to 4095
 *   black_level   grey levels, 0 to full_scale; usually 64 at 10 bits. There is no default: 0 means 0
 *   mask          width * height codes, only read: 0 surveyed, 1 gap, 2 defect, 3 filled
 *   frame         width * height samples, only read; a sample at any code but 0 may be any number, and changes nothing
 *   place         written: the first offending site for 5 and 6, else 0
 *   over          written: for 6 how many surveyed samples are above full_scale, 1 to width * height; else 0
 *   numerator     written: sum - black_level * n
 *   denominator   written: n
 *
 * Refusals, in the order tested: 1; 2; 3 (black_level above full_scale); 4 (mask or frame); 5; 6; 7 (no surveyed site).
 *
 *   const uint8_t mask[4] = {0, 0, 0, 0};
 *   const uint16_t frame[4] = {60, 64, 64, 64};
 *   uint64_t place, over, denominator;
 *   int64_t numerator;
 *   tip_dark_level(2, 2, 1023, 64, mask, 4, frame, 4, &place, &over, &numerator, &denominator);
 *                                       gives 0, and -4 / 4
 *
 *   With 1024 for each 64 of the frame it gives 6, place is 1 and over 3.
 */
uint64_t tip_dark_level(size_t width, size_t height, uint64_t full_scale, uint64_t black_level,
                        const uint8_t *mask, size_t mask_len,
                        const uint16_t *frame, size_t frame_len,
                        uint64_t *place, uint64_t *over, int64_t *numerator, uint64_t *denominator);

/*
 * Stacks of frames: up to 100 frames of one window, mask and full scale, of which only some numbers are kept. Three
 * calls share one stack; pattern noise takes its count and its sums alone.
 *
 * A stack. The count of its frames, and four numbers for each site, in four buffers of width * height each:
 *
 *   sums       the sum of the site's samples, grey levels
 *   squares    the sum of their squares, grey levels squared
 *   least      the least of them, grey levels
 *   greatest   the greatest of them, grey levels
 *
 * All four are 0 while no frame is in. At a site that is not surveyed (mask code 1 to 3) what they hold changes no
 * answer, and stays.
 *
 * Whose it is. The caller owns the four buffers, keeps the count, and lends them: tip_stack_add writes the buffers and
 * answers the new count, tip_stack_variance and tip_blinking_sites only read them.
 *
 * Refusal 11. With k the count of frames, and sum, square, least and greatest what the four buffers hold at a site, a
 * stack as lent is impossible where at some surveyed site
 *
 *   sum > k * full_scale, square > k * full_scale * full_scale, or k * square < sum * sum;
 *   least > greatest, or greatest > full_scale;
 *   sum < k * least, or sum > k * greatest;
 *   k is 0, and least or greatest is above 0.
 *
 * It is the same in all three calls, and its place is 0. A stack that tip_stack_add has built from zeros, with one
 * window, mask and full scale, never gets it. Some stacks that no frames can give pass these tests.
 */

/*
 * Adds a frame to a stack. At a surveyed site (mask code 0) the sample is added to the sum and its square to the sum of
 * squares. Where no frame was in, the sample becomes both least and greatest; later least becomes the lesser of itself
 * and the sample, greatest the greater. With one window, mask and full scale throughout, accepted frames give the same
 * stack in any order.
 *
 * sums, squares, least and greatest are written: none of them may overlap another buffer, and no other call may read
 * them meanwhile.
 *
 *   full_scale   grey levels, 1 to 4095
 *   frames       how many frames are in the stack before the call: 0 to 99
 *   mask         width * height codes, only read: 0 surveyed, 1 gap, 2 defect, 3 filled
 *   frame        width * height samples, only read; a sample at any code but 0 may be any number, and changes nothing
 *   sums         width * height sums, grey levels; written at surveyed sites where the call is accepted
 *   squares      width * height sums of squares, grey levels squared, likewise
 *   least        width * height least samples, grey levels, likewise
 *   greatest     width * height greatest samples, grey levels, likewise
 *   place        written: the first offending site for 5 and 6, else 0
 *   over         written: for 6 how many surveyed samples are above full_scale, 1 to width * height; else 0
 *   count        written: frames + 1; on a refusal 0, and the stack still has its frames
 *
 * Refusals, in the order tested: 1; 2; 3 (frames above 100); 4 (mask, frame, sums, squares, least or greatest); 5; 6;
 * 11 (the stack as lent is impossible: see above); 12 (frames is 100). With no surveyed site a frame is accepted.
 *
 *   const uint8_t mask[4] = {0, 0, 0, 1};
 *   const uint16_t frame[4] = {100, 101, 102, 65535};
 *   uint32_t sums[4] = {0}, squares[4] = {0};
 *   uint16_t least[4] = {0}, greatest[4] = {0};
 *   uint64_t place, over, count;
 *   tip_stack_add(2, 2, 1023, 0, mask, 4, frame, 4, sums, 4, squares, 4, least, 4, greatest, 4, &place, &over, &count);
 *                                       gives 0, count is 1, sums 100 101 102 0, squares 10000 10201 10404 0, least and
 *                                       greatest 100 101 102 0
 */
uint64_t tip_stack_add(size_t width, size_t height, uint64_t full_scale, uint64_t frames,
                       const uint8_t *mask, size_t mask_len,
                       const uint16_t *frame, size_t frame_len,
                       uint32_t *sums, size_t sums_len,
                       uint32_t *squares, size_t squares_len,
                       uint16_t *least, size_t least_len,
                       uint16_t *greatest, size_t greatest_len,
                       uint64_t *place, uint64_t *over, uint64_t *count);

/*
 * The variance of a stack, in grey levels squared, from the sums and sums of squares. least and greatest are judged, by
 * 4 and 11, and change no figure.
 *
 *   full_scale    grey levels, 1 to 4095
 *   frames        how many frames are in the stack: 2 to 100
 *   mask          width * height codes, only read: 0 surveyed, 1 gap, 2 defect, 3 filled
 *   sums          width * height sums, grey levels, only read; at any code but 0 any number, and changes nothing
 *   squares       width * height sums of squares, grey levels squared, likewise
 *   least         width * height least samples, grey levels, likewise
 *   greatest      width * height greatest samples, grey levels, likewise
 *   place         written: the first offending site for 5, else 0
 *   numerator     written: the sum of frames * square - sum * sum over the n surveyed sites (mask code 0), at most n
 *                 times the square of frames * full_scale, so below 2^53 and exact as a double, as denominator is
 *   denominator   written: n * frames * frames
 *   variance      written: numerator / denominator, rounded once, in grey levels squared
 *
 * Refusals, in the order tested: 1; 2; 3 (frames is 0 or above 100); 4 (mask, sums, squares, least or greatest); 5;
 * 7 (no surveyed site, or frames is 1); 11 (the stack is impossible: see above).
 *
 *   const uint8_t mask[4] = {0, 0, 0, 0};
 *   const uint32_t sums[4] = {201, 202, 204, 207}, squares[4] = {20201, 20402, 20808, 21425};
 *   const uint16_t least[4] = {100, 101, 102, 103}, greatest[4] = {101, 101, 102, 104};
 *   uint64_t place, numerator, denominator;
 *   double variance;
 *   tip_stack_variance(2, 2, 1023, 2, mask, 4, sums, 4, squares, 4, least, 4, greatest, 4,
 *                      &place, &numerator, &denominator, &variance);
 *                                       gives 0, and 2 / 16, 0.125
 */
uint64_t tip_stack_variance(size_t width, size_t height, uint64_t full_scale, uint64_t frames,
                            const uint8_t *mask, size_t mask_len,
                            const uint32_t *sums, size_t sums_len,
                            const uint32_t *squares, size_t squares_len,
                            const uint16_t *least, size_t least_len,
                            const uint16_t *greatest, size_t greatest_len,
                            uint64_t *place, uint64_t *numerator, uint64_t *denominator, double *variance);

/*
 * Counts the blinking sites of a stack: the surveyed sites (mask code 0) whose greatest sample less their least is at
 * least spread. Such a site jumps between levels, while its mean may look healthy. After frames that tip_stack_add
 * accepted it is a site at which two of them differ by spread or more.
 *
 *   full_scale   grey levels, 1 to 4095
 *   frames       how many frames are in the stack: 1 to 100
 *   spread       grey levels, 1 to 4095; above full_scale none is counted
 *   mask         width * height codes, only read: 0 surveyed, 1 gap, 2 defect, 3 filled
 *   sums         width * height sums, grey levels, only read; at any code but 0 any number, and changes nothing
 *   squares      width * height sums of squares, grey levels squared, likewise
 *   least        width * height least samples, grey levels, likewise
 *   greatest     width * height greatest samples, grey levels, likewise
 *   place        written: the first offending site for 5, else 0
 *   count        written: how many surveyed sites are blinking, 0 to width * height
 *
 * Sums and squares are judged, by 4 and 11, and change no count. At a greater spread the count is never greater. No
 * surveyed site gives the count 0, and so does a stack to which one frame was added: neither is refused.
 *
 * Refusals, in the order tested: 1; 2; 3 (spread not in 1..4095, or frames is 0 or above 100); 4 (mask, sums, squares,
 * least or greatest); 5; 11 (the stack is impossible: see above). There is no 6, since no frame is taken, and no 7.
 *
 *   Two frames, site 0 at 100 and then at 900, the others at 500 both times; so the mean of each is 500:
 *   const uint8_t mask[4] = {0, 0, 0, 0};
 *   const uint32_t sums[4] = {1000, 1000, 1000, 1000}, squares[4] = {820000, 500000, 500000, 500000};
 *   const uint16_t least[4] = {100, 500, 500, 500}, greatest[4] = {900, 500, 500, 500};
 *   uint64_t place, count;
 *   tip_blinking_sites(2, 2, 1023, 2, 800, mask, 4, sums, 4, squares, 4, least, 4, greatest, 4, &place, &count);
 *                                       gives 0, and count is 1; at spread 1 it is 1 too, at spread 801 it is 0
 *
 *   With frames 0 it gives 3.
 */
uint64_t tip_blinking_sites(size_t width, size_t height, uint64_t full_scale, uint64_t frames, uint64_t spread,
                            const uint8_t *mask, size_t mask_len,
                            const uint32_t *sums, size_t sums_len,
                            const uint32_t *squares, size_t squares_len,
                            const uint16_t *least, size_t least_len,
                            const uint16_t *greatest, size_t greatest_len,
                            uint64_t *place, uint64_t *count);

/*
 * Vertical pattern noise of a stack: how much its columns differ, from the sums that tip_stack_add has built. Every
 * mask code must be 0. With C the column totals of the sums, h the height, w the width and k the frame count:
 *
 *   level squared   the sum of (C[i] - C[i+1])^2, i from 0 to w-2, over (w-1) * (h * k * full_scale)^2
 *   Max             the greatest of |10 * C[i] - S[i]|, i from 5 to w-6, over 10 * h * k * full_scale,
 *                   where S[i] is the sum of the ten totals C[i-5..i-1] and C[i+1..i+5]
 *
 * Both are parts of full scale, from 0 to 1, given by two whole numbers each, unreduced. In Max a dark column counts
 * as a bright one does: by how far it is from the ten around it.
 *
 *   full_scale          grey levels, 1 to 4095
 *   frames              the stack's frame count, 1 to 100
 *   mask                width * height codes, only read, each 0
 *   sums                width * height sums, grey levels, only read, each 0 to frames * full_scale
 *   place               written: the first offending site for 5, else 0
 *   level_numerator, level_denominator, max_numerator, max_denominator
 *                       written: the figures, or 0 each on a refusal
 *
 * Refusals, in the order tested: 1; 2; 3 (frames 0 or above 100); 4 (mask or sums); 5; 8 (a code from 1 to 3);
 * 9 (width below 12); 11 (a sum above frames * full_scale).
 *
 *   uint8_t mask[24] = {0};
 *   uint32_t sums[24];                 every one 100, but sums[6] and sums[18] 110
 *   uint64_t place, ln, ld, mn, md;
 *   tip_pattern_vertical(12, 2, 1023, 1, mask, 24, sums, 24, &place, &ln, &ld, &mn, &md);
 *                                      gives 0, and ln/ld is 800/46047276, mn/md is 200/20460; the same with 90 for 110
 */
uint64_t tip_pattern_vertical(size_t width, size_t height, uint64_t full_scale, uint64_t frames,
                              const uint8_t *mask, size_t mask_len,
                              const uint32_t *sums, size_t sums_len,
                              uint64_t *place,
                              uint64_t *level_numerator, uint64_t *level_denominator,
                              uint64_t *max_numerator, uint64_t *max_denominator);

/*
 * Horizontal pattern noise: as tip_pattern_vertical, with rows for columns. Width and height change places everywhere:
 * the level squared is over (height-1) * (width * k * full_scale)^2, Max is over 10 * width * k * full_scale, and 9 is
 * given where the height is below 12.
 *
 *   The window above turned on its side, 2 wide and 12 high with row 6 at 110 or at 90, gives the same numbers.
 */
uint64_t tip_pattern_horizontal(size_t width, size_t height, uint64_t full_scale, uint64_t frames,
                                const uint8_t *mask, size_t mask_len,
                                const uint32_t *sums, size_t sums_len,
                                uint64_t *place,
                                uint64_t *level_numerator, uint64_t *level_denominator,
                                uint64_t *max_numerator, uint64_t *max_denominator);

/*
 * Defective sites (dark mode). Each of the four planes is worked alone. A surveyed site (mask code 0) with sample p is
 * compared with the surveyed ones among the 31 * 31 sites of its plane around it, cut off at the plane's edges: c of
 * them, the site included, with the sum S. It is defective when |p * c - S| >= threshold * c: it is at least the
 * threshold from their mean. Every decision uses the mask as it came in.
 *
 * The time grows with the window's sites, not with the 31 * 31 of a box. Running totals stand in local arrays of 5,136
 * bytes; with all its locals the call needs at most 64 KB of stack, and no buffer but those below.
 *
 *   full_scale   grey levels, 1 to 4095
 *   threshold    grey levels, 1 to 4095; 0 stands for the default, 24
 *   mask         width * height codes, only read: 0 surveyed, 1 gap, 2 defect, 3 filled
 *   frame        width * height samples, only read; a sample at any code but 0 may be any number, and changes nothing
 *   out_mask     width * height codes, each written: 2 where a site is newly found, else the code of mask
 *   place        written: the first offending site for 5 and 6, else 0
 *   over         written: for 6 how many surveyed samples are above full_scale, 1 to width * height; else 0
 *   count        written: how many sites are newly found (were 0 in mask and are 2 in out_mask), 0 on a refusal
 *
 * Refusals, in the order tested: 1; 2; 3 (threshold above 4095); 4 (mask, frame or out_mask); 5; 6.
 *
 *   const uint8_t mask[16] = {0};
 *   const uint16_t frame[16] = {64, 64, 64, 64, 64, 102, 64, 64, 64, 64, 64, 64, 64, 64, 64, 64};
 *   uint8_t out_mask[16];
 *   uint64_t place, over, count;
 *   tip_find_defects(4, 4, 1023, 28, mask, 16, frame, 16, out_mask, 16, &place, &over, &count);
 *                                          gives 0, count is 1, and out_mask is 2 at site 5, 0 elsewhere
 *
 *   With 101 at site 5 the count is 0 at threshold 28, and 1 at threshold 0.
 */
uint64_t tip_find_defects(size_t width, size_t height, uint64_t full_scale, uint64_t threshold,
                          const uint8_t *mask, size_t mask_len,
                          const uint16_t *frame, size_t frame_len,
                          uint8_t *out_mask, size_t out_mask_len,
                          uint64_t *place, uint64_t *over, uint64_t *count);

/*
 * Repair. A site of code 2 with at least one surveyed site (code 0) among its eight plane neighbours, two sites away
 * and inside the window, gets their mean, half rounded up, and code 3; with none it stays as it is. A site of any
 * other code is copied, sample and code. Filled sites never feed a fill, so a second repair changes nothing.
 *
 *   full_scale   grey levels, 1 to 4095
 *   mask         width * height codes, only read: 0 surveyed, 1 gap, 2 defect, 3 filled
 *   frame        width * height samples, only read; at a code other than 0 any number
 *   out_frame    width * height samples, each written
 *   out_mask     width * height codes, each written
 *   place        written: the first offending site for 5 and 6, else 0
 *   over         written: for 6 how many surveyed samples are above full_scale, 1 to width * height; else 0
 *   filled       written: how many sites were filled (were 2 in mask and are 3 in out_mask), 0 on a refusal
 *
 * Refusals, in the order tested: 1; 2; 4 (mask, frame, out_frame or out_mask); 5; 6.
 *
 *   const uint8_t mask[16] = {0, 0, 0, 0, 0, 2, 0, 0, 0, 0, 0, 0, 0, 0, 0, 0};
 *   const uint16_t frame[16] = {64, 64, 64, 64, 64, 999, 64, 65, 64, 64, 64, 64, 64, 66, 64, 66};
 *   uint16_t out_frame[16];
 *   uint8_t out_mask[16];
 *   uint64_t place, over, filled;
 *   tip_repair(4, 4, 1023, mask, 16, frame, 16, out_frame, 16, out_mask, 16, &place, &over, &filled);
 *                                          gives 0, filled is 1, and site 5 is 66 with code 3: (65 + 66 + 66) / 3
 */
uint64_t tip_repair(size_t width, size_t height, uint64_t full_scale,
                    const uint8_t *mask, size_t mask_len,
                    const uint16_t *frame, size_t frame_len,
                    uint16_t *out_frame, size_t out_frame_len,
                    uint8_t *out_mask, size_t out_mask_len,
                    uint64_t *place, uint64_t *over, uint64_t *filled);

/*
 * Marks the defective rows of each of the four planes, height / 2 to a plane. A row with c > 0 surveyed sites (mask
 * code 0) and sum s is compared with the eight rows of its plane above it and the eight below, pooled: count C, sum S.
 * At the plane's edges rows are mirrored without repeating the edge (row -1 is row 1), and a row counts as often as it
 * is met. It is defective when C > 0 and 2 * |s * C - S * c| > 5 * c * C: its mean is more than 2.5 grey levels from
 * theirs.
 *
 *   full_scale   grey levels, 1 to 4095
 *   mask         width * height codes, only read: 0 surveyed, 1 gap, 2 defect, 3 filled
 *   frame        width * height samples, only read; a sample at any code but 0 may be any number, and changes nothing
 *   marks        2 * height bytes, each written: 1 for a defective row, 0 for any other; the height / 2 rows of
 *                plane (0,0), then of (0,1), (1,0), (1,1): (row parity, column parity)
 *   place        written: the first offending site for 5 and 6, else 0
 *   over         written: for 6 how many surveyed samples are above full_scale, 1 to width * height; else 0
 *
 * Refusals, in the order tested: 1; 2; 4 (mask, frame or marks); 5; 6; 9 (height below 18).
 *
 *   uint8_t mask[36] = {0}, marks[36];
 *   uint16_t frame[36];
 *   uint64_t place, over;
 *   for (int i = 0; i < 36; i++) frame[i] = 100;
 *   frame[17] = 103;                                     row 8, column 1: row 4 of plane (0,1)
 *   tip_defective_rows(2, 18, 1023, mask, 36, frame, 36, marks, 36, &place, &over);
 *                                                        gives 0, and marks[13] is 1, every other mark 0
 */
uint64_t tip_defective_rows(size_t width, size_t height, uint64_t full_scale,
                            const uint8_t *mask, size_t mask_len,
                            const uint16_t *frame, size_t frame_len,
                            uint8_t *marks, size_t marks_len,
                            uint64_t *place, uint64_t *over);

/*
 * Marks the defective columns of each of the four planes: as tip_defective_rows, with columns for rows. marks has
 * 2 * width bytes, width / 2 for each plane; 9 is given for a width below 18.
 *
 *   With mask, frame and marks as above, and frame[26] (row 1, column 8: column 4 of plane (1,0)) 103 instead:
 *   tip_defective_columns(18, 2, 1023, mask, 36, frame, 36, marks, 36, &place, &over);
 *                                                        gives 0, and marks[22] is 1, every other mark 0
 */
uint64_t tip_defective_columns(size_t width, size_t height, uint64_t full_scale,
                               const uint8_t *mask, size_t mask_len,
                               const uint16_t *frame, size_t frame_len,
                               uint8_t *marks, size_t marks_len,
                               uint64_t *place, uint64_t *over);

/*
 * Colour ratios of the four planes' centres: R, B and Gb over Gr, pure numbers.
 *
 * bayer_order names the colour at site (0,0): 0 R, 1 Gr, 2 B, 3 Gb. Gr shares R's rows, Gb shares B's:
 *   0: R Gr / Gb B     1: Gr R / B Gb     2: B Gb / Gr R     3: Gb B / R Gr
 * Of each plane (width / 2 by height / 2) the centre is taken, 32 wide and 24 high, left and top being half the rest
 * rounded down. T is the sum over its surveyed sites of sample - black level, c their count. X over Gr is
 * T(X) * c(Gr) over T(Gr) * c(X), unreduced; a numerator may be negative, a denominator is above 0, and neither is
 * above 2415329280 in size.
 *
 *   full_scale      grey levels, 1 to 4095
 *   black_level     grey levels, 0 to full_scale
 *   bayer_order     0 to 3, as above
 *   mask            width * height codes, only read: 0 surveyed, 1 gap, 2 defect, 3 filled
 *   frame           width * height samples, only read; a sample at any code but 0 may be any number
 *   place           written: the first offending site for 5 and 6, else 0
 *   over            written: for 6 how many surveyed samples are above full_scale, 1 to width * height; else 0
 *   the other six   written: numerator and denominator of R/Gr, of B/Gr and of Gb/Gr
 *
 * Refusals, in the order tested: 1; 2; 3 (black_level above full_scale, bayer_order above 3); 4 (mask or frame);
 * 5; 6; 9 (width below 64 or height below 48, even with no surveyed site); 7 (no surveyed site in some plane's
 * centre); 10 (T(Gr) not above 0). In this call 9 is tested before 7. 5 and 6 look at the whole window, so over counts
 * outside the centres too.
 *
 *   64 * 48 samples of 100, but 164 at even rows and columns; mask all 0:
 *   tip_colour_ratios(64, 48, 1023, 64, 0, mask, 3072, frame, 3072, &place, &over, &rn, &rd, &bn, &bd, &gn, &gd);
 *   gives 0, and R/Gr is 58982400/21233664, B/Gr and Gb/Gr are 21233664/21233664
 */
uint64_t tip_colour_ratios(size_t width, size_t height, uint64_t full_scale, uint64_t black_level,
                           uint64_t bayer_order,
                           const uint8_t *mask, size_t mask_len,
                           const uint16_t *frame, size_t frame_len,
                           uint64_t *place, uint64_t *over,
                           int64_t *r_numerator, uint64_t *r_denominator,
                           int64_t *b_numerator, uint64_t *b_denominator,
                           int64_t *gb_numerator, uint64_t *gb_denominator);

/*
 * Colour shading: how far each block's colour is from the centre's. Three calls share one table. What they find goes
 * into lent buffers: no number is answered but the refusal's number, its place, and over where the call can give 6.
 *
 * Blocks. Each plane (width / 2 by height / 2) is divided into blocks 16 wide and 12 high, from its top left. What is
 * left over at the right and lower edge is in no block. There are width / 32 blocks side by side and height / 24 below
 * one another, divided down; blocks is their product, 4 to 20 where the window is not too small. They are numbered from
 * 0 in row order. The centre is that of tip_colour_ratios, 32 wide and 24 high. A site may be in a block, in the
 * centre, in both or in neither.
 *
 * The table. For each block and each centre of each plane, a total, the sum of its surveyed samples in grey levels, and
 * a count, how many sites of it are surveyed: at most 192 in a block and 768 at a centre. totals and counts are two
 * buffers of 4 * (blocks + 1) each. Plane p, 0 to 3 for (0,0), (0,1), (1,0), (1,1), has block k at p * (blocks + 1) + k
 * and its centre at p * (blocks + 1) + blocks. No black level is taken off in it, and no Bayer order is asked for it.
 *
 * Whose it is. The caller owns the table and lends it, as it does mask and frame: tip_shading_table makes it,
 * tip_shading_recode keeps it in step with a mask code that changes, and tip_shading_judge only reads it.
 */

/*
 * Makes the table of a frame under a mask.
 *
 *   full_scale   grey levels, 1 to 4095
 *   mask         width * height codes, only read: 0 surveyed, 1 gap, 2 defect, 3 filled
 *   frame        width * height samples, only read; a sample at any code but 0 may be any number, and changes nothing
 *   totals       4 * (blocks + 1) totals, grey levels, each written: 0 to count * full_scale
 *   counts       4 * (blocks + 1) counts of sites, each written: 0 to 192 for a block, 0 to 768 for a centre
 *   place        written: the first offending site for 5 and 6, else 0
 *   over         written: for 6 how many surveyed samples are above full_scale, 1 to width * height; else 0
 *
 * A table made here, or recoded since with its own mask and frame, never gets 11 from tip_shading_judge, given the same
 * sides and full_scale.
 *
 * Refusals, in the order tested: 1; 2; 4 (mask, frame, totals or counts); 5; 6; 9 (width below 64 or height below 48,
 * even with no surveyed site). 5 and 6 look at the whole window, so over counts sites in no block too. The lengths are
 * asked for where 9 follows too: a window of 62 by 48 has two blocks, so it needs 12 totals and 12 counts to get 9.
 *
 *   64 * 48 samples, R Gr / Gb B at 164 264 / 264 114, but 184 at R in the first block; mask all 0, not const:
 *   uint32_t totals[20], counts[20];
 *   uint64_t place, over;
 *   tip_shading_table(64, 48, 1023, mask, 3072, frame, 3072, totals, 20, counts, 20, &place, &over);
 *                                       gives 0; counts are 192, at the four centres 768; totals[0] is 192 * 184,
 *                                       totals[1] to [3] 192 * 164, totals[4], R's centre, 768 * 169
 */
uint64_t tip_shading_table(size_t width, size_t height, uint64_t full_scale,
                           const uint8_t *mask, size_t mask_len,
                           const uint16_t *frame, size_t frame_len,
                           uint32_t *totals, size_t totals_len,
                           uint32_t *counts, size_t counts_len,
                           uint64_t *place, uint64_t *over);

/*
 * Changes one mask code, and amends the table at that site's block and centre, if it lies in one. From code 0 to
 * another its sample is taken off the total and 1 off the count, from another to 0 they are added, else the table
 * stays. A table made under the old mask is then the one that tip_shading_table makes under the new mask. Any code may
 * be changed, a gap's too. No other site's code or sample is read.
 *
 * The table is trusted: whether it fits the mask is not tested, there is no 11, and it is amended modulo 2^32.
 * Recoding back leaves mask and table as they were, whatever the table.
 *
 * mask, totals and counts are written: none of them may overlap another buffer, and no other call may read them
 * meanwhile.
 *
 *   full_scale   grey levels, 1 to 4095
 *   site         0 to width * height - 1
 *   code         the new code, 0 to 3; it may be the old one
 *   mask         width * height codes; written at site where the call is accepted, and nowhere else
 *   frame        width * height samples, grey levels, only read, and only at site; any number at any other site, and at
 *                site where neither the old nor the new code is 0
 *   totals       4 * (blocks + 1) totals, grey levels; written, at the site's block and centre, where the call is
 *                accepted
 *   counts       4 * (blocks + 1) counts of sites, likewise
 *   place        written: site for 5 and 6, else 0
 *   over         written: 1 for 6, else 0
 *
 * Refusals, in the order tested: 1; 2; 3 (site outside the window); 4 (mask, frame, totals or counts); 5 (the old or
 * the new code is above 3); 6 (the sample is above full_scale, and the old or the new code is 0); 9 (width below 64 or
 * height below 48). The lengths are asked for where 9 follows too, as in tip_shading_table.
 *
 *   With the table above, site 0, which is R in the first block and at the centre:
 *   tip_shading_recode(64, 48, 1023, 0, 1, mask, 3072, frame, 3072, totals, 20, counts, 20, &place, &over);
 *                                       gives 0; mask[0] is 1, totals[0] 191 * 184, counts[0] 191, totals[4] 184 less,
 *                                       counts[4] 767. With code 0 in a second call all is as before
 */
uint64_t tip_shading_recode(size_t width, size_t height, uint64_t full_scale, size_t site, uint64_t code,
                            uint8_t *mask, size_t mask_len,
                            const uint16_t *frame, size_t frame_len,
                            uint32_t *totals, size_t totals_len,
                            uint32_t *counts, size_t counts_len,
                            uint64_t *place, uint64_t *over);

/*
 * Judges each block's R/Gr, and B/Gb, by the centre's. T is total - black_level * count. In the block R/Gr is a over b,
 * a = T(R) * count(Gr) and b = T(Gr) * count(R); at the centre it is c over d, likewise. How far the block's ratio is
 * off, as a part of the centre's, is |a * d - c * b| over c * b: a pure number, unreduced. The block fails where this
 * is above limit sixteenths: 16 * numerator > limit * denominator. B/Gb is the same with B for R and Gb for Gr. No mask
 * is taken, and no frame.
 *
 *   full_scale     grey levels, 1 to 4095
 *   black_level    grey levels, 0 to full_scale
 *   bayer_order    0 to 3: the colour at site (0,0), as tip_colour_ratios
 *   limit          sixteenths, 1 to 16
 *   totals         4 * (blocks + 1) totals, grey levels, only read, each at most count * full_scale
 *   counts         4 * (blocks + 1) counts of sites, only read, each at most 192 for a block and 768 for a centre
 *   numerators     2 * blocks numbers, each written: |a * d - c * b|, below 2^60; 0 where refused
 *   denominators   2 * blocks numbers, each written: c * b, above 0 and below 2^60; 0 where refused
 *   refusals       2 * blocks bytes, each written: 7 or 10 where this block and ratio is refused, else 0
 *   fails          2 * blocks bytes, each written: 1 where the block fails in this ratio, else 0
 *   place          written: 0
 *
 * In the four written buffers R/Gr of block k is at k, B/Gb of block k at blocks + k.
 *
 * Refusals, in the order tested: 1; 2; 3 (black_level above full_scale, bayer_order above 3, limit not in 1..16);
 * 4 (totals, counts, numerators, denominators, refusals or fails); 9 (width below 64 or height below 48); 11 (anywhere
 * in the table a count above 192 for a block or 768 for a centre, or a total above count * full_scale); and then, in
 * refusals, for each block and ratio by itself: 7 (one of the ratio's two planes has count 0 in the block or at the
 * centre); 10 (T of Gr, or for B/Gb of Gb, in the block or at the centre, or T of R, or for B/Gb of B, at the centre,
 * is not above 0). T of R or B in the block may be 0 or below. 11 stands before 7 and 10, and refuses the whole call. A
 * 7 or 10 does not: the result is 0, and every other block and ratio is judged all the same. The lengths are asked for
 * where 9 follows too, as in tip_shading_table (62 by 48: 12 and 12, and 4 of each written buffer).
 *
 *   With the table above:
 *   uint64_t numerators[8], denominators[8];
 *   uint8_t refusals[8], fails[8];
 *   tip_shading_judge(64, 48, 1023, 64, 0, 2, totals, 20, counts, 20, numerators, 8, denominators, 8, refusals, 8,
 *                     fails, 8, &place);
 *                                       gives 0; numerators[0] / denominators[0] is 65229815808000 / 456608710656000,
 *                                       a seventh, and fails[0] is 1; R/Gr of the other three blocks is 1/21 off, B/Gb
 *                                       of all four 0, and these pass. With limit 3 every block passes
 */
uint64_t tip_shading_judge(size_t width, size_t height, uint64_t full_scale, uint64_t black_level,
                           uint64_t bayer_order, uint64_t limit,
                           const uint32_t *totals, size_t totals_len,
                           const uint32_t *counts, size_t counts_len,
                           uint64_t *numerators, size_t numerators_len,
                           uint64_t *denominators, size_t denominators_len,
                           uint8_t *refusals, size_t refusals_len,
                           uint8_t *fails, size_t fails_len,
                           uint64_t *place);

/*
 * A point of a photon transfer: what was measured at one exposure.
 *
 *   exposure   in any unit of the caller's: any number, and it changes nothing
 *   mean       sixteenths of a grey level, 0 to 65520 (16 * 4095), with the black level or without
 *   variance   sixteenths of a grey level squared, 0 to 268435456 (2^28)
 */
typedef struct {
    uint64_t exposure, mean, variance;
} tip_point;

/*
 * Photon transfer: the gain of a camera, in grey levels per electron (EMVA 1288), as the slope of the least squares
 * line of variance against mean. Of the m points from first to last, both included, x is the mean and y the variance;
 * Sx, Sy, Sxx and Sxy are the sums of x, y, x * x and x * y over them. The sixteenths cancel out.
 *
 *   points        1 to 64 points in any order, only read; those that are not chosen count for saturation and for 3
 *   first, last   places in the list, from 0: first below last, last below points_len
 *   place         written: 0
 *   numerator     written: m * Sxy - Sx * Sy, below 2^53 in size; below 0 where the variance falls as the mean grows
 *   denominator   written: m * Sxx - Sx * Sx, above 0 and at most 4395899289600
 *   slope         written: numerator / denominator, rounded once, so off by at most one part in 2^53: the gain. It has
 *                 the numerator's sign, and is 0, never -0, where the numerator is 0
 *   saturation    written: the first place, from 0, of the greatest variance in the whole list, chosen or not
 *
 * A point is made of this library's figures of two frames of one exposure, each rounded half up:
 *
 *   mean       16 * numerator / denominator of tip_dark_level of the first frame, with black_level 0:
 *              (32 * numerator + denominator) / (2 * denominator), in whole numbers
 *   variance   16 * p / q of tip_pair_figures of both: (32 * p + q) / (2 * q), in whole numbers
 *
 * Nothing overflows here, and such a point is within limits whatever the frames: 16 * 4095 is 65520, and
 * 16 * 4095 * 4095 / 2 is below 2^28. The black level need not be taken off: one number taken off all chosen means, or
 * added to them, within limits, changes neither numerator nor denominator. It must be the same number for each: where a
 * mean is cut off at 0, the slope may be another.
 *
 * Refusals, in the order tested: 3 (the list is empty or has more than 64 points, a mean above 65520 or a variance
 * above 2^28 anywhere in it, chosen or not, last not below points_len, or first above last); 7 (fewer than two points
 * are chosen: first is last); 13 (all chosen means are equal); 14 (numerator or denominator is 2^53 or more in size;
 * within these limits only the numerator can be).
 *
 *   const tip_point points[5] = {{1, 1600, 840}, {2, 3200, 1640}, {4, 6400, 3240}, {8, 12800, 6440}, {16, 16368, 90}};
 *   uint64_t place, denominator, saturation;
 *   int64_t numerator;
 *   double slope;
 *   tip_photon_transfer(points, 5, 0, 2, &place, &numerator, &denominator, &slope, &saturation);
 *                                       gives 0, and 17920000 / 35840000, slope 0.5, saturation 3
 *
 *   From 4 to 4 it gives 7, from 4 to 5 or from 2 to 0 it gives 3.
 */
uint64_t tip_photon_transfer(const tip_point *points, size_t points_len, size_t first, size_t last,
                             uint64_t *place, int64_t *numerator, uint64_t *denominator, double *slope,
                             uint64_t *saturation);

/*
 * A whole job in one stream: two frames, their mask and numbers in, pair noise and the first frame's dark level out.
 * A field is a one-byte tag, a two-byte big-endian length and the body; tags 1 to 7 then 0, in that order: 1 width,
 * 2 height, 3 full scale, 4 black level (two bytes each, big-endian), 5 mask (width * height bytes), 6 and 7 the
 * frames in RAW10 (width * height * 5 / 4 bytes each), 0 empty. Fields 1 to 5 begin at bytes 0, 5, 10, 15 and 20.
 * Sides are at most 64, so no good stream is longer than 14,368 bytes, and the first 14,369 decide every answer.
 *
 *   input   the stream, only read
 *   place   written: the offset of the field's first byte for 20, 21 and 22, of the first extra byte for 23, the site
 *           for 5 and 6, else 0
 *   over    written: for 6 how many surveyed samples of both frames are above full scale, as tip_pair_figures; else 0
 *   sites   written: n, the count of surveyed sites
 *   p, q    written: the variance of the pair is p / q grey levels squared, as tip_pair_figures
 *   r       written: the noise of the pair is r / (64 * n) grey levels, likewise
 *   dark    written: the dark level of the first frame is dark / n grey levels, as tip_dark_level
 *
 * Refusals, first met in the stream. In a field: 21 (another tag than the next due), 20 (the input ends inside the
 * field or before it), 22 (wrong length); the tag is judged first, then the length, then whether the body is all
 * there. After field 2: 1, then 24 (a side above 64). After field 0: 23 (bytes follow), then the library's refusals:
 * 2, 5, 6, 7 of pair noise, then 3 of the dark level.
 *
 * The program job prints number and place of a refusal, 'refused 20 at 10', and of a 6 also over,
 * 'refused 6 at 3 count 9'.
 *
 *   tip_job(input, 46, &place, &over, &sites, &p, &q, &r, &dark), of a 2 by 2 window with every site surveyed, full
 *   scale 1023, black level 64 and the frames 100 101 102 103 and 101 101 102 104,
 *                                                        gives 0, and 4, 4 / 32, 90 / 256, 150 / 4
 *   With full scale 101 it gives 6, place is 2 and over 4.
 */
uint64_t tip_job(const uint8_t *input, size_t input_len,
                 uint64_t *place, uint64_t *over,
                 uint64_t *sites, uint64_t *p, uint64_t *q, uint64_t *r, int64_t *dark);

#ifdef __cplusplus
}
#endif

#endif
