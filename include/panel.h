/*
 * panel: enlarges small pictures three or nine times by ScaleFX, at once or block by block as they change.
 * Link with libpanel.a (./build library, or the archive's lib/). The library uses no heap and keeps no state of its
 * own: all that it reads and writes is lent by the caller, for the time of the call, so calls on different buffers may
 * run at the same time. PANEL_STACK_BYTES below is the stack to keep free.
 *
 * Pictures. A picture has w columns and h rows of 32-bit words, which stand row after row from the top left; wh stands below
 * for w times h. A word is 0xTTRRGGBB: red, green and blue as bytes. The top byte TT is carried from the picture
 * to the output and never compared; a call with a palette carries that of the palette's entry instead. w or h may be 0.
 *
 * Buffers. Each buffer is a pointer and its length, IN ELEMENTS, not in bytes. A buffer may be longer than the
 * call needs: elements past the stated number stay untouched. Nothing is asked of the caller but this: each pointer
 * is valid for its stated length, aligned for its type and not null, also where a length is 0; and what a call writes
 * does not overlap anything else that it is lent.
 *
 * Answers. Every call but panel_distance, panel_nearness and panel_version returns 0, or the number of a refusal. A
 * refused call changes no buffer, and writes 0 through each pointer to a number that it would have answered. Every
 * condition is checked, and there is no input for which a call does not answer.
 *
 *   1  a side is past its limit
 *   2  the picture buffer is short
 *   3  the output buffer is short
 *   4  the singles, bytes, middle, marks or replaced buffer is short
 *   5  the position is outside the picture
 *   6  the root's operand has its sign bit set, is infinite or is not a number
 *   7  the block is stale
 *   8  the file is under 12 bytes, its last four bytes are wrong, or its back is wrong: not 12 + 4wh, or not its length
 *  10  a rectangle of width and height above 0 reaches past the picture, given to panel_lock or standing in a header
 *  11  a paint of another word inside the lock
 *  12  a list of more than 64 paints
 *  13  a clarity above 2, or of 1 or 2 with a threshold that is not above 0, is above 1 or is not a number, given to a
 *      call or standing in a header
 *  14  a palette of no entry or of more than 256; answered by the two calls with a palette alone, by none of a session
 *
 * Where several hold, the first in the order 1, 10, 2, 3, 4, 13, 14, 12, 5, 7, 11 is returned (panel_read_page: 8, 1,
 * 2); but where nothing up to 12 holds of a list of paints, its items are judged one by one, in its order, and the
 * first that is refused gives its number, be it 5 or 11.
 *
 * Clarity. The corner of a pixel is smoothed by its weight. That is 0 where the edge distance, the one between the two
 * neighbours at this corner, is 0.5 or more. Some panels want less smoothing, so a setting of clarity is chosen for a
 * whole picture and for a session: a number, and a float, its threshold.
 *   PANEL_STANDARD   0.5; the float is not looked at
 *   PANEL_THRESHOLD  the float, above 0 and at most 1, in every place of 0.5 in the weight; where it is 0.5, words,
 *                    singles and bytes are those of PANEL_STANDARD
 *   PANEL_GATED      the same, and the weight is 0 too unless 2 times the edge distance is below the sum of the pixel's
 *                    distances to these two neighbours, product and sum in single precision
 * The smallest float above 0, a subnormal one, is lawful; 0, -0.0, an infinity and a NaN are not.
 *
 * Machine. The library is for x86-64 with SSE2, called by the System V ABI, size_t having 64 bits. Its code is
 * position independent. The only symbols that it needs from outside are memcpy and memset. The toolchain makes no code
 * for ARM today.
 *
 * Floating point. The library computes in IEEE 754 single precision with SSE2. It takes for granted that MXCSR is set
 * as at a program's start: rounding to nearest, all exceptions masked, denormals not flushed (FTZ and DAZ off). With
 * another setting a call may answer other words and numbers, or raise a signal. A call may leave status flags set,
 * also those of operations that no answer rests on (an unused lane of a vector may divide 0 by 0); it changes nothing
 * else in MXCSR.
 *
 * Costs of a session. An opening writes the whole output, with 0, and all marks. A paint counts all marks once (wh
 * bytes are read), also where the word is equal; a changed pixel makes at most 120 blocks stale, a cross round it. A
 * list of paints counts them once, however many items it has: several pixels are best painted by one list. A refresh
 * reads all marks once too, those near stale blocks a few times; in slices of n, so does each slice. Blocks are drawn in
 * tiles of up to 16 by 12, in a nine-times session of up to 5 by 4, each the rectangle round stale blocks, of which the
 * stale ones are written; a tile's blocks share work, so a slice that ends within a row of stale blocks costs more for
 * each block than one that takes whole rows. Measured at 256 by 256 (docs/PERFORMANCE.md of the repository), on a page
 * of text and on noise: the first refresh of everything took a little more than twice as long as panel_scale; one
 * changed pixel, its paint and its refresh, took less than a hundredth of panel_scale. So, where most of a page changes,
 * do not paint every pixel: store the words in the picture and open anew, which takes one opening and one refresh of
 * everything.
 * In a nine-times session a changed pixel makes at most 272 blocks stale, a rectangle round it; the first refresh of
 * everything took three to four times as long as panel_scale9x, one changed pixel about a fiftieth of it.
 */
#ifndef PANEL_H
#define PANEL_H

#include <stddef.h>
#include <stdint.h>

#ifdef __cplusplus
extern "C" {
#endif

/* The version of this header: major * 10000 + minor * 100 + patch, and the three with points between. */
#define PANEL_VERSION 800u
#define PANEL_VERSION_STRING "0.8.0"

/*
 * No call takes more bytes of stack than this. It is measured, not proved: examples/stack.c, with what memcpy and memset
 * of the C library take counted, and without what a dynamic linker takes that looks them up at their first call.
 */
#define PANEL_STACK_BYTES 32768u

#define PANEL_NONE 0u      /* not refused */
#define PANEL_SIDE 1u      /* a side past its limit */
#define PANEL_PICTURE 2u   /* the picture buffer is short */
#define PANEL_OUTPUT 3u    /* the output buffer is short */
#define PANEL_SCRATCH 4u   /* singles, bytes, middle, marks or replaced are short */
#define PANEL_OUTSIDE 5u   /* the position is outside the picture */
#define PANEL_OPERAND 6u   /* no root: sign bit set, infinite or not a number */
#define PANEL_STALE 7u     /* the block is stale */
#define PANEL_TRAILER 8u   /* the file is no page */
#define PANEL_LOCK 10u     /* a locked rectangle reaches past the picture */
#define PANEL_LOCKED 11u   /* the position is locked, and the word is another */
#define PANEL_ITEMS 12u    /* the list has more than 64 paints */
#define PANEL_CLARITY 13u  /* the clarity is none, or its threshold not above 0 and at most 1 */
#define PANEL_PALETTE 14u  /* the palette has no entry, or more than 256 */

#define PANEL_STANDARD 0u  /* clarity: 0.5 */
#define PANEL_THRESHOLD 1u /* clarity: a threshold in the place of 0.5 */
#define PANEL_GATED 2u     /* clarity: a threshold behind a gate */

#define PANEL_SIDE_3X 2048u /* the largest side of panel_scale, of a session and of a page */
#define PANEL_SIDE_9X 682u  /* the largest side of panel_scale9x and of a nine-times session */

/* The lengths of the buffers, in elements, for a picture of w by h. None wraps for sides up to 2 to the 28th. */
#define PANEL_PICTURE_LEN(w, h) ((size_t)(w) * (size_t)(h))
#define PANEL_REPLACED_LEN(w, h) PANEL_PICTURE_LEN(w, h)
#define PANEL_OUTPUT_LEN(w, h) ((size_t)9 * PANEL_PICTURE_LEN(w, h))
#define PANEL_MARKS_LEN(w, h) PANEL_PICTURE_LEN(w, h)
#define PANEL_SINGLES_LEN(w, h) ((size_t)8 * PANEL_PICTURE_LEN(w, h))
#define PANEL_BYTES_LEN(w, h) ((size_t)8 * PANEL_PICTURE_LEN(w, h))

/* The lengths of those of panel_scale9x; the first is that of a nine-times session too. */
#define PANEL_OUTPUT9_LEN(w, h) ((size_t)81 * PANEL_PICTURE_LEN(w, h))
#define PANEL_MIDDLE9_LEN(w, h) ((size_t)9 * PANEL_PICTURE_LEN(w, h))
#define PANEL_SINGLES9_LEN(w, h) ((size_t)72 * PANEL_PICTURE_LEN(w, h))
#define PANEL_BYTES9_LEN(w, h) ((size_t)72 * PANEL_PICTURE_LEN(w, h))

#define PANEL_HEADER_LEN 8u      /* the numbers of a session's header */
#define PANEL_HEADER_W 0         /* the place of w in it */
#define PANEL_HEADER_H 1         /* the place of h in it */
#define PANEL_HEADER_LEFT 2      /* the place of the lock's first column in it */
#define PANEL_HEADER_TOP 3       /* the place of the lock's first row in it */
#define PANEL_HEADER_WIDTH 4     /* the place of the lock's columns in it */
#define PANEL_HEADER_HEIGHT 5    /* the place of the lock's rows in it */
#define PANEL_HEADER_CLARITY 6   /* the place of the clarity in it */
#define PANEL_HEADER_THRESHOLD 7 /* the place of the threshold's bit pattern in it */
#define PANEL_BLOCK_WORDS 9u     /* the words of a block */
#define PANEL_BLOCK9_WORDS 81u   /* the words of a block of a nine-times session */
#define PANEL_LIST_LEN 64u       /* the most items of a list of paints */
#define PANEL_PALETTE_LEN 256u   /* the most entries of a palette */

/*
 * The version of the library, to be held to PANEL_VERSION: a program that was compiled with another header's numbers
 * and lengths is found out at its start. Never refused.
 */
uint32_t panel_version(void);

/*
 * The square root of a single, rounded to the nearest single.
 *   *root    the root; +0.0 beside a refusal
 * Refusal 6 where x has its sign bit set (-0.0 too), is infinite or is not a number.
 */
uint32_t panel_root(float x, float *root);

/*
 * How different two colours look: 0 to 1, and 0 exactly where the low 24 bits of p and q agree. The order of p and
 * q does not matter, and neither do their top bytes. Never refused.
 */
float panel_distance(uint32_t p, uint32_t q);

/*
 * How near two colours are: a whole number N, the smaller the nearer. A palette's entry is chosen by it. R, G and B
 * being the channels of p, and R', G' and B' those of q, with ^2 for a square, it is
 *   N = (1020 + R + R') (R - R')^2 + 2040 (G - G')^2 + (1530 - R - R') (B - B')^2
 * which is from 0 to 298464750, that of black and white, and 0 exactly where the low 24 bits of p and q agree. The
 * order of p and q does not matter, and neither do their top bytes. Never refused.
 */
uint32_t panel_nearness(uint32_t p, uint32_t q);

/*
 * Enlarges a whole picture three times.
 *   w, h     at most 2048 each
 *   clarity  PANEL_STANDARD, PANEL_THRESHOLD or PANEL_GATED, with its threshold
 *   picture  wh words, read
 *   output   9wh words, written: 3h rows of 3w
 *   singles  8wh floats, written: first four distances a pixel (to top-left, top, top-right, right), then four
 *            corner weights a pixel (top-left, top-right, bottom-right, bottom-left), pixels in row order
 *   bytes    8wh bytes, written: first four junction numbers a pixel (0 to 15), then four tag numbers (0 to 80)
 * What singles and bytes held before does not matter; what they hold afterwards may be ignored.
 * Refusals, in this order: 1 w or h past 2048; 2; 3; 4 singles or bytes; 13. With w or h of 0 nothing is written.
 */
uint32_t panel_scale(uint32_t w, uint32_t h,
                     uint32_t clarity, float threshold,
                     const uint32_t *picture, size_t picture_len,
                     uint32_t *output, size_t output_len,
                     float *singles, size_t singles_len,
                     uint8_t *bytes, size_t bytes_len);

/*
 * Enlarges a whole picture nine times: three times, and the result three times again, both at the same clarity.
 *   w, h     at most 682 each
 *   clarity  PANEL_STANDARD, PANEL_THRESHOLD or PANEL_GATED, with its threshold
 *   picture  wh words, read
 *   output   81wh words, written: 9h rows of 9w
 *   middle   9wh words, written: the picture enlarged three times
 *   singles  72wh floats, written: as in panel_scale, of the second enlargement
 *   bytes    72wh bytes, written: as in panel_scale, of the second enlargement
 * Refusals, in this order: 1 w or h past 682; 2; 3; 4 middle, singles or bytes; 13. With w or h of 0 nothing is written.
 */
uint32_t panel_scale9x(uint32_t w, uint32_t h,
                       uint32_t clarity, float threshold,
                       const uint32_t *picture, size_t picture_len,
                       uint32_t *output, size_t output_len,
                       uint32_t *middle, size_t middle_len,
                       float *singles, size_t singles_len,
                       uint8_t *bytes, size_t bytes_len);

/*
 * Enlarges a whole picture three times for a panel that shows the colours of a palette alone. Each word of the picture
 * is replaced by the nearest entry, and the replaced picture is enlarged: output, singles and bytes are those of
 * panel_scale, given the replaced picture at the same clarity.
 * The nearest entry is the one with the smallest panel_nearness to the word; of several that have it, the one at the
 * lowest place. The entry's whole word takes the place of the picture's, whose own top byte goes. So every word of the
 * output is an entry, top byte and all: with an entry's place in its top byte, that byte drives the panel.
 *   w, h      at most 2048 each
 *   clarity   PANEL_STANDARD, PANEL_THRESHOLD or PANEL_GATED, with its threshold
 *   picture   wh words, read
 *   palette   palette_len entries, read: 1 to 256 words, each of which counts. An entry may stand more than once
 *   replaced  wh words, written: the replaced picture
 *   output    9wh words, written: 3h rows of 3w
 *   singles   8wh floats, written: as in panel_scale, of the replaced picture
 *   bytes     8wh bytes, written: as in panel_scale, of the replaced picture
 * Cost. The entries of words that came before are kept in a table of 251 places, so a page of few colours costs little
 * more than panel_scale; in a picture of very many colours most words cost a search of the palette. docs/PERFORMANCE.md
 * of the repository has the figures.
 * Refusals, in this order: 1 w or h past 2048; 2; 3; 4 replaced, singles or bytes; 13; 14 palette_len of 0 or past 256,
 * also where w or h is 0. With w or h of 0 nothing is written.
 */
uint32_t panel_scale_palette(uint32_t w, uint32_t h,
                             uint32_t clarity, float threshold,
                             const uint32_t *picture, size_t picture_len,
                             const uint32_t *palette, size_t palette_len,
                             uint32_t *replaced, size_t replaced_len,
                             uint32_t *output, size_t output_len,
                             float *singles, size_t singles_len,
                             uint8_t *bytes, size_t bytes_len);

/*
 * Enlarges a whole picture nine times for a panel that shows the colours of a palette alone: the words are replaced as
 * by panel_scale_palette, at the same cost, and the replaced picture is enlarged as by panel_scale9x.
 *   w, h      at most 682 each
 *   clarity   PANEL_STANDARD, PANEL_THRESHOLD or PANEL_GATED, with its threshold
 *   picture   wh words, read
 *   palette   palette_len entries, read: as in panel_scale_palette
 *   replaced  wh words, written: the replaced picture
 *   output    81wh words, written: 9h rows of 9w
 *   middle    9wh words, written: the replaced picture enlarged three times
 *   singles   72wh floats, written: as in panel_scale9x, of the replaced picture
 *   bytes     72wh bytes, written: as in panel_scale9x, of the replaced picture
 * Refusals, in this order: 1 w or h past 682; 2; 3; 4 replaced, middle, singles or bytes; 13; 14 palette_len of 0 or
 * past 256, also where w or h is 0. With w or h of 0 nothing is written.
 */
uint32_t panel_scale9x_palette(uint32_t w, uint32_t h,
                               uint32_t clarity, float threshold,
                               const uint32_t *picture, size_t picture_len,
                               const uint32_t *palette, size_t palette_len,
                               uint32_t *replaced, size_t replaced_len,
                               uint32_t *output, size_t output_len,
                               uint32_t *middle, size_t middle_len,
                               float *singles, size_t singles_len,
                               uint8_t *bytes, size_t bytes_len);

/*
 * A session keeps an output three times the size of a picture that changes, and draws anew only what a change can
 * have altered. It is a header and three buffers, which the caller keeps from call to call and writes by these
 * calls alone:
 *   header   eight numbers, w, h, the lock's left, top, width and height, the clarity and the bit pattern of its
 *            threshold, as panel_open or panel_lock answered them last without a refusal; lent to every later call
 *   picture  wh words
 *   output   9wh words: 3h rows of 3w. The nine words of the pixel (bx, by) are block (bx, by)
 *   marks    wh bytes, one a block in row order: 0 where the block shows the present picture, else it is stale
 * Whatever paints and refreshes were made, a block that is not stale shows what panel_scale draws there for the
 * present picture at the session's clarity. A stale block keeps the words of its last drawing.
 * The lock is a rectangle of the picture in which no paint changes a word. With a width or a height of 0 it locks
 * nothing, whatever the other three numbers are. It does not keep the caller from writing the picture himself.
 * A header is checked like fresh sizes: a call with a header that no call answered is refused or safe. Its clarity is
 * lawful where it is PANEL_STANDARD, the pattern then not being looked at, or where it is one of the other two and the
 * pattern is 1 to 0x3f800000, which are the floats above 0 and at most 1.
 */

/*
 * Opens a session on a picture. No block is drawn yet.
 *   w, h     at most 2048 each
 *   clarity  PANEL_STANDARD, PANEL_THRESHOLD or PANEL_GATED, with its threshold; the session keeps them
 *   picture  wh words, read
 *   output   9wh words, written: 0
 *   marks    wh bytes, written: 1, every block is stale
 *   header   the session's header: w, h, four 0s, nothing is locked, the clarity, and the threshold's bit pattern, which
 *            is 0 at PANEL_STANDARD; eight 0s beside a refusal
 *   *stale   the number of stale blocks, wh; 0 beside a refusal
 * Refusals, in this order: 1 w or h past 2048; 2; 3; 4 marks; 13.
 */
uint32_t panel_open(uint32_t w, uint32_t h,
                    uint32_t clarity, float threshold,
                    const uint32_t *picture, size_t picture_len,
                    uint32_t *output, size_t output_len,
                    uint8_t *marks, size_t marks_len,
                    uint32_t header[PANEL_HEADER_LEN], uint32_t *stale);

/*
 * Locks a rectangle, in place of the one that was locked, or with a width or height of 0 nothing. Only the header is
 * lent; the session's buffers have no part in it.
 *   header   the session's header, read
 *   locked   the header with the lock as given, to be lent to later calls in place of header; eight 0s beside a refusal,
 *            where the header before stays in force. It is another array than header. Clarity and pattern are header's;
 *            at PANEL_STANDARD the pattern answered is 0
 * Refusals, in this order: 1 the header's w or h past 2048; 10 the header's lock, or the rectangle given, reaches past
 * the picture: left + width above w or top + height above h, the sums taken without wrapping; 13 the header's clarity.
 */
uint32_t panel_lock(const uint32_t header[PANEL_HEADER_LEN],
                    uint32_t left, uint32_t top, uint32_t width, uint32_t height,
                    uint32_t locked[PANEL_HEADER_LEN]);

/*
 * Paints one pixel.
 *   picture   the word at (column, row) is written where it is another, its top byte counted
 *   marks     where the word was another, 1 is written at each block (bx, by) inside the picture that it can alter,
 *             which has bx within 6 of column and by from row-2 to row+3, or bx within 3 and by from row-5 to row+6;
 *             else nothing
 *   *changed  1 where the word was another, 0 where it was equal; 0 beside a refusal
 *   *stale    the number of stale blocks after the call; 0 beside a refusal
 * Refusals, in this order: 1 the header's w or h past 2048; 10 the header's lock past the picture; 2; 4 marks; 13 the
 * header's clarity; 5 (column, row) outside the picture; 11 the position is locked and the word another: an equal one is
 * not refused.
 */
uint32_t panel_paint(const uint32_t header[PANEL_HEADER_LEN],
                     uint32_t *picture, size_t picture_len,
                     uint8_t *marks, size_t marks_len,
                     uint32_t column, uint32_t row, uint32_t word,
                     uint32_t *changed, uint32_t *stale);

/*
 * One paint of a list: three numbers of 32 bits, with nothing between or behind them; where a compiler would lay them
 * out otherwise, the line below it does not compile.
 */
struct panel_item {
    uint32_t column;
    uint32_t row;
    uint32_t word;
};
typedef char panel_item_has_12_bytes[sizeof(struct panel_item) == 12 ? 1 : -1];

/*
 * Paints several pixels, all or none: what panel_paint would do for each item, in the order of the list, or, where it
 * would refuse one of them at its turn, nothing at all. Items may name one position several times.
 *   picture  the words of the items are written, as by panel_paint
 *   marks    1 is written at the blocks that the changed words can alter, as by panel_paint
 *   items    items_len items, read; items_len counts items, not numbers, and may be 0
 *   *stale   the number of stale blocks after the call; 0 beside a refusal
 * Refusals, in this order: 1 the header's w or h past 2048; 10 the header's lock past the picture; 2; 4 marks; 13 the
 * header's clarity; 12 more than 64 items; then 5 or 11, whichever the first item that is refused has.
 */
uint32_t panel_paint_list(const uint32_t header[PANEL_HEADER_LEN],
                          uint32_t *picture, size_t picture_len,
                          uint8_t *marks, size_t marks_len,
                          const struct panel_item *items, size_t items_len,
                          uint32_t *stale);

/*
 * Draws the first n stale blocks in row order, or all of them where there are fewer, at the header's clarity.
 *   picture  read
 *   output   nine words are written for each block drawn
 *   marks    0 is written for each block drawn
 *   *drawn   the number of blocks drawn; 0 beside a refusal
 *   *left    the number of blocks still stale; 0 beside a refusal
 * Refusals, in this order: 1 the header's w or h past 2048; 10 the header's lock past the picture; 2; 3; 4 marks; 13 the
 * header's clarity.
 */
uint32_t panel_refresh(const uint32_t header[PANEL_HEADER_LEN],
                       const uint32_t *picture, size_t picture_len,
                       uint32_t *output, size_t output_len,
                       uint8_t *marks, size_t marks_len,
                       uint32_t n, uint32_t *drawn, uint32_t *left);

/*
 * The nine words of one block, row by row. Nothing is written but words.
 *   words    the block; nine times 0 beside a refusal
 * Refusals, in this order: 1 the header's w or h past 2048; 10 the header's lock past the picture; 3; 4 marks; 13 the
 * header's clarity; 5 (bx, by) outside the picture; 7 the block is stale.
 */
uint32_t panel_show(const uint32_t header[PANEL_HEADER_LEN],
                    const uint32_t *output, size_t output_len,
                    const uint8_t *marks, size_t marks_len,
                    uint32_t bx, uint32_t by, uint32_t words[PANEL_BLOCK_WORDS]);

/*
 * A nine-times session keeps an output nine times the size of its picture. Its six calls have the names of the six above
 * with panel9_ in front. What is said there, of the header, the lock, the buffers, the answers, and the refusals and their
 * order, is said of these too, but for this:
 *   sides    at most 682 each; refusal 1 past that
 *   output   81wh words: 9h rows of 9w. Block (bx, by) is the 81 words in rows 9by to 9by+8 and columns 9bx to 9bx+8
 *   drawing  a block that is not stale shows what panel_scale9x draws there for the present picture at the session's
 *            clarity
 * A header does not tell which of the two it is of. Lent to a call of the other, it is refused or taken as that of a
 * session there: nothing is read or written outside the buffers, but blocks may be shown that were never drawn, as the two
 * outputs are laid out differently. So a session keeps to the calls of the kind that opened it.
 */

/*
 * Opens a nine-times session, as panel_open does a session.
 *   output   81wh words, written: 0
 */
uint32_t panel9_open(uint32_t w, uint32_t h,
                     uint32_t clarity, float threshold,
                     const uint32_t *picture, size_t picture_len,
                     uint32_t *output, size_t output_len,
                     uint8_t *marks, size_t marks_len,
                     uint32_t header[PANEL_HEADER_LEN], uint32_t *stale);

/* Locks a rectangle, as panel_lock does. */
uint32_t panel9_lock(const uint32_t header[PANEL_HEADER_LEN],
                     uint32_t left, uint32_t top, uint32_t width, uint32_t height,
                     uint32_t locked[PANEL_HEADER_LEN]);

/*
 * Paints one pixel, as panel_paint does.
 *   marks     where the word was another, 1 is written at each block (bx, by) inside the picture that has bx within 8 of
 *             column and by from row-7 to row+8; else nothing
 */
uint32_t panel9_paint(const uint32_t header[PANEL_HEADER_LEN],
                      uint32_t *picture, size_t picture_len,
                      uint8_t *marks, size_t marks_len,
                      uint32_t column, uint32_t row, uint32_t word,
                      uint32_t *changed, uint32_t *stale);

/* Paints several pixels, all or none: to panel9_paint what panel_paint_list is to panel_paint. */
uint32_t panel9_paint_list(const uint32_t header[PANEL_HEADER_LEN],
                           uint32_t *picture, size_t picture_len,
                           uint8_t *marks, size_t marks_len,
                           const struct panel_item *items, size_t items_len,
                           uint32_t *stale);

/*
 * Draws stale blocks, as panel_refresh does.
 *   output   81 words are written for each block drawn
 */
uint32_t panel9_refresh(const uint32_t header[PANEL_HEADER_LEN],
                        const uint32_t *picture, size_t picture_len,
                        uint32_t *output, size_t output_len,
                        uint8_t *marks, size_t marks_len,
                        uint32_t n, uint32_t *drawn, uint32_t *left);

/*
 * The 81 words of one block, row by row, as panel_show has nine.
 *   words    the block; 81 times 0 beside a refusal
 */
uint32_t panel9_show(const uint32_t header[PANEL_HEADER_LEN],
                     const uint32_t *output, size_t output_len,
                     const uint8_t *marks, size_t marks_len,
                     uint32_t bx, uint32_t by, uint32_t words[PANEL_BLOCK9_WORDS]);

/*
 * Reads a page file: pixels as little-endian words, then a trailer of 12 bytes at the end of the file: w and h, 16
 * bits each, and back, 32 bits, all little-endian, then the bytes 50 41 47 45 (hexadecimal). Back is the distance
 * from the end of the file to its first pixel. It has to be 12 + 4wh and file_len: the page starts at the first byte,
 * and two pages in one file are refused.
 *   file     file_len bytes, read
 *   picture  wh words, written
 *   *w, *h   the sides; 0 and 0 beside a refusal
 * Refusals, in this order: 8 the file is no page; 1 w or h past 2048; 2.
 */
uint32_t panel_read_page(const uint8_t *file, size_t file_len,
                         uint32_t *picture, size_t picture_len,
                         uint32_t *w, uint32_t *h);

#ifdef __cplusplus
}
#endif

#endif
