/*
 * A nine-times session through the C face: a page drawn in slices, a block of 81 words, a cursor, a legend that is
 * locked, lists of paints, the settings of clarity, and what is refused. Every answer is held to what it must be.
 * panel.c beside this file has the three-times session.
 * Build in the repository: gcc -std=c99 -Iinclude examples/nine.c target/staticlib/libpanel.a -o nine
 * Build in the archive:    gcc -std=c99 -Iinclude examples/nine.c lib/libpanel.a -o nine
 */
#include <inttypes.h>
#include <stdio.h>
#include <string.h>

#include "expect.h"
#include "panel.h"

enum { SIDE = 32, PIXELS = PANEL_PICTURE_LEN(SIDE, SIDE), WORDS = PANEL_OUTPUT9_LEN(SIDE, SIDE) };

static const uint32_t BLACK = 0x00000000u, GREY = 0x00606060u, RED = 0x00c00000u, WHITE = 0x00ffffffu;

/* A page: a white field with one diagonal of two shades in turn, 0.38 apart. */
static uint32_t header[PANEL_HEADER_LEN], picture[PIXELS], output[WORDS];
static uint8_t marks[PIXELS];

static void draw_picture(void)
{
    for (size_t i = 0; i < PIXELS; i++)
        picture[i] = i % SIDE != i / SIDE ? WHITE : i % 2 == 0 ? BLACK : GREY;
}

static uint32_t open_page(uint32_t clarity, float threshold, uint32_t *stale)
{
    return panel9_open(SIDE, SIDE, clarity, threshold, picture, PIXELS, output, WORDS, marks, PIXELS, header, stale);
}

static uint32_t refresh(uint32_t n, uint32_t *drawn, uint32_t *left)
{
    return panel9_refresh(header, picture, PIXELS, output, WORDS, marks, PIXELS, n, drawn, left);
}

static uint32_t paint(uint32_t column, uint32_t row, uint32_t word, uint32_t *changed, uint32_t *stale)
{
    return panel9_paint(header, picture, PIXELS, marks, PIXELS, column, row, word, changed, stale);
}

static uint32_t paint_list(const struct panel_item *items, size_t items_len, uint32_t *stale)
{
    return panel9_paint_list(header, picture, PIXELS, marks, PIXELS, items, items_len, stale);
}

static uint32_t show(uint32_t bx, uint32_t by, uint32_t words[PANEL_BLOCK9_WORDS])
{
    return panel9_show(header, output, WORDS, marks, PIXELS, bx, by, words);
}

/* With nothing stale the output is what scale9x draws of the present picture. */
static void expect_whole(uint32_t clarity, float threshold)
{
    static uint32_t whole[WORDS], middle[PANEL_MIDDLE9_LEN(SIDE, SIDE)];
    static float singles[PANEL_SINGLES9_LEN(SIDE, SIDE)];
    static uint8_t bytes[PANEL_BYTES9_LEN(SIDE, SIDE)];

    EXPECT(panel_scale9x(SIDE, SIDE, clarity, threshold, picture, PIXELS, whole, WORDS, middle,
                         PANEL_MIDDLE9_LEN(SIDE, SIDE), singles, PANEL_SINGLES9_LEN(SIDE, SIDE), bytes,
                         PANEL_BYTES9_LEN(SIDE, SIDE)) == PANEL_NONE);
    EXPECT(memcmp(output, whole, sizeof whole) == 0);
}

/* Slices of n blocks until none is stale; the number of slices. */
static uint32_t draw_in_slices(uint32_t n, uint32_t stale)
{
    uint32_t drawn, left, slices = 0;

    do {
        EXPECT(refresh(n, &drawn, &left) == PANEL_NONE);
        EXPECT(drawn == (stale < n ? stale : n) && left == stale - drawn);
        stale = left;
        slices++;
    } while (left != 0);
    return slices;
}

/* The session is opened; nothing can be shown before a slow loop has drawn it. */
static void first_drawing(void)
{
    uint32_t refusal, stale, words[PANEL_BLOCK9_WORDS];

    memset(output, 0x55, sizeof output);
    refusal = open_page(PANEL_STANDARD, 0.0f, &stale);
    EXPECT(refusal == PANEL_NONE && stale == PIXELS);
    EXPECT(header[PANEL_HEADER_W] == SIDE && header[PANEL_HEADER_H] == SIDE);
    for (size_t i = PANEL_HEADER_LEFT; i <= PANEL_HEADER_THRESHOLD; i++)
        EXPECT(header[i] == 0);
    for (size_t i = 0; i < WORDS; i++)
        EXPECT(output[i] == 0);
    printf("open: refusal %" PRIu32 ", header %" PRIu32 " by %" PRIu32 ", %" PRIu32 " stale\n", refusal,
           header[PANEL_HEADER_W], header[PANEL_HEADER_H], stale);
    refusal = show(5, 5, words);
    EXPECT(refusal == PANEL_STALE);
    for (size_t i = 0; i < PANEL_BLOCK9_WORDS; i++)
        EXPECT(words[i] == 0);
    printf("show (5, 5): refusal %" PRIu32 "\n", refusal);
    printf("refresh: slices of 100 until none is stale: %" PRIu32 "\n", draw_in_slices(100, stale));
    expect_whole(PANEL_STANDARD, 0.0f);
    printf("output: as scale9x draws it\n");
}

/* A block on the diagonal: its words are those in nine rows of the output. */
static void show_block(void)
{
    uint32_t refusal, words[PANEL_BLOCK9_WORDS];

    refusal = show(5, 5, words);
    EXPECT(refusal == PANEL_NONE);
    printf("show (5, 5):\n");
    for (size_t row = 0; row < 9; row++) {
        EXPECT(memcmp(words + 9 * row, output + (9 * 5 + row) * 9 * SIDE + 9 * 5, 9 * sizeof *words) == 0);
        for (size_t column = 0; column < 9; column++) {
            uint32_t word = words[9 * row + column];

            putchar(word == BLACK ? '#' : word == GREY ? '+' : '.');
        }
        putchar('\n');
    }
    refusal = show(SIDE, 5, words);
    EXPECT(refusal == PANEL_OUTSIDE && words[0] == 0 && words[80] == 0);
    printf("show (32, 5): refusal %" PRIu32 "\n", refusal);
}

/* Each paint makes a rectangle of 17 by 16 blocks stale, less what a border cuts off; what lies round it stays. */
static void cursor(void)
{
    enum { PAINTS = 3 };
    static const uint32_t at[PAINTS] = {10, 0, 31}, expected[PAINTS] = {272, 81, 72};
    uint32_t changed, stale, words[PANEL_BLOCK9_WORDS];

    EXPECT(paint(10, 10, picture[10 * SIDE + 10], &changed, &stale) == PANEL_NONE && changed == 0 && stale == 0);
    printf("paint of an equal word: changed %" PRIu32 ", %" PRIu32 " stale\n", changed, stale);
    for (size_t i = 0; i < PAINTS; i++) {
        EXPECT(paint(at[i], at[i], RED, &changed, &stale) == PANEL_NONE);
        EXPECT(changed == 1 && stale == expected[i]);
        EXPECT(show(at[i], at[i], words) == PANEL_STALE && show(20, 10, words) == PANEL_NONE);
        printf("cursor at (%" PRIu32 ", %" PRIu32 ") of 32 by 32: %" PRIu32 " stale, slices of 100: %" PRIu32 "\n",
               at[i], at[i], stale, draw_in_slices(100, stale));
        expect_whole(PANEL_STANDARD, 0.0f);
    }
}

/* A legend of 4 by 2 pixels. */
enum { LEFT = 20, TOP = 4, WIDTH = 4, HEIGHT = 2, ITEMS = WIDTH * HEIGHT };

/* It is painted by one list and locked; a rectangle past the page is no lock. */
static void legend(struct panel_item items[ITEMS])
{
    uint32_t stale, locked[PANEL_HEADER_LEN];

    for (uint32_t i = 0; i < ITEMS; i++)
        items[i] = (struct panel_item){LEFT + i % WIDTH, TOP + i / WIDTH, RED};
    EXPECT(paint_list(items, ITEMS, &stale) == PANEL_NONE);
    /* columns 12 to 31 of rows 0 to 13 */
    EXPECT(stale == 20 * 14);
    printf("legend: %d paints in one call, %" PRIu32 " stale\n", ITEMS, stale);
    EXPECT(draw_in_slices(UINT32_MAX, stale) == 1);
    expect_whole(PANEL_STANDARD, 0.0f);
    EXPECT(panel9_lock(header, SIDE - 1, 0, 2, 1, locked) == PANEL_LOCK && locked[PANEL_HEADER_W] == 0);
    EXPECT(panel9_lock(header, LEFT, TOP, WIDTH, HEIGHT, locked) == PANEL_NONE);
    memcpy(header, locked, sizeof header);
}

/* It cannot be painted over: a paint or a list that would is refused, and everything stays. */
static void legend_kept(struct panel_item items[PANEL_LIST_LEN + 1])
{
    static uint32_t before[PIXELS];
    uint32_t refusal, stale, changed, drawn;

    memcpy(before, picture, sizeof before);
    refusal = paint(LEFT, TOP, WHITE, &changed, &stale);
    EXPECT(refusal == PANEL_LOCKED && changed == 0 && stale == 0);
    printf("paint in the legend: refusal %" PRIu32 "\n", refusal);
    items[0] = (struct panel_item){0, 9, RED};
    items[ITEMS - 1].word = WHITE;
    EXPECT(paint_list(items, ITEMS, &stale) == PANEL_LOCKED && stale == 0);
    items[1].column = SIDE;
    EXPECT(paint_list(items, ITEMS, &stale) == PANEL_OUTSIDE && stale == 0);
    EXPECT(paint_list(items, PANEL_LIST_LEN + 1, &stale) == PANEL_ITEMS && stale == 0);
    printf("list into the legend, past the page, of %d paints: refused %u, %u, %u\n", (int)PANEL_LIST_LEN + 1,
           PANEL_LOCKED, PANEL_OUTSIDE, PANEL_ITEMS);
    EXPECT(memcmp(before, picture, sizeof before) == 0);
    EXPECT(refresh(UINT32_MAX, &drawn, &stale) == PANEL_NONE && drawn == 0 && stale == 0);
}

/* A session at each setting draws what scale9x draws at it, which on this page is another output each time. */
static void settings(void)
{
    static const struct {
        const char *name;
        uint32_t clarity, pattern;
        float threshold;
    } at[] = {
        {"standard", PANEL_STANDARD, 0, 0.0f},
        {"threshold 0.25", PANEL_THRESHOLD, 0x3e800000u, 0.25f},
        {"gated 0.5", PANEL_GATED, 0x3f000000u, 0.5f},
    };
    static uint32_t before[WORDS];
    uint32_t stale, drawn, left;

    for (size_t i = 0; i < sizeof at / sizeof at[0]; i++) {
        memcpy(before, output, sizeof before);
        EXPECT(open_page(at[i].clarity, at[i].threshold, &stale) == PANEL_NONE && stale == PIXELS);
        EXPECT(header[PANEL_HEADER_CLARITY] == at[i].clarity && header[PANEL_HEADER_THRESHOLD] == at[i].pattern);
        EXPECT(refresh(UINT32_MAX, &drawn, &left) == PANEL_NONE && drawn == PIXELS && left == 0);
        expect_whole(at[i].clarity, at[i].threshold);
        EXPECT((memcmp(before, output, sizeof before) == 0) == (at[i].clarity == PANEL_STANDARD));
        printf("%s: %" PRIu32 " drawn, as scale9x draws them\n", at[i].name, drawn);
    }
}

/* A strip of one pixel more than a side may have. */
enum { LONG = PANEL_SIDE_9X + 1 };

static uint32_t strip[LONG], strip_output[PANEL_OUTPUT9_LEN(LONG, 1)];
static uint8_t strip_marks[LONG];

/* Sides past 682, short buffers and an unlawful setting; everything stays, and the numbers answered are 0. */
static void refused(void)
{
    static const struct {
        const char *name;
        uint32_t w, h, clarity, refusal;
        size_t picture_len, output_len, marks_len;
    } cases[] = {
        {"683 by 1", LONG, 1, PANEL_STANDARD, PANEL_SIDE, LONG, 81 * LONG, LONG},
        {"1 by 683", 1, LONG, PANEL_STANDARD, PANEL_SIDE, LONG, 81 * LONG, LONG},
        {"682 by 1, picture short", LONG - 1, 1, PANEL_STANDARD, PANEL_PICTURE, LONG - 2, 81 * LONG, LONG},
        {"682 by 1, output short", LONG - 1, 1, PANEL_STANDARD, PANEL_OUTPUT, LONG, 81 * (LONG - 1) - 1, LONG},
        {"682 by 1, marks short", LONG - 1, 1, PANEL_STANDARD, PANEL_SCRATCH, LONG, 81 * LONG, LONG - 2},
        {"682 by 1, gated 0", LONG - 1, 1, PANEL_GATED, PANEL_CLARITY, LONG, 81 * LONG, LONG},
        {"682 by 1", LONG - 1, 1, PANEL_STANDARD, PANEL_NONE, LONG - 1, 81 * (LONG - 1), LONG - 1},
    };
    uint32_t refusal, stale, opened[PANEL_HEADER_LEN];

    for (size_t i = 0; i < sizeof cases / sizeof cases[0]; i++) {
        memset(strip_output, 0x55, sizeof strip_output);
        refusal = panel9_open(cases[i].w, cases[i].h, cases[i].clarity, 0.0f, strip, cases[i].picture_len, strip_output,
                              cases[i].output_len, strip_marks, cases[i].marks_len, opened, &stale);
        EXPECT(refusal == cases[i].refusal && stale == (refusal == PANEL_NONE ? LONG - 1 : 0));
        EXPECT(opened[PANEL_HEADER_W] == stale && strip_marks[0] == (refusal == PANEL_NONE));
        EXPECT(strip_output[0] == (refusal == PANEL_NONE ? 0 : 0x55555555u));
        printf("%s: refusal %" PRIu32 ", %" PRIu32 " stale\n", cases[i].name, refusal, stale);
    }
}

static uint32_t open_three(uint32_t w, uint32_t three[PANEL_HEADER_LEN])
{
    uint32_t stale;

    return panel_open(w, 1, PANEL_STANDARD, 0.0f, strip, w, strip_output, PANEL_OUTPUT_LEN(w, 1), strip_marks, w, three,
                      &stale);
}

/* A three-times session, lent to nine-times calls: its sides may be past their limit, its output too short for them. */
static void other_kind(void)
{
    uint32_t sides, output_short, three[PANEL_HEADER_LEN], changed, stale, drawn, left;

    EXPECT(open_three(LONG, three) == PANEL_NONE);
    sides = panel9_paint(three, strip, LONG, strip_marks, LONG, 0, 0, RED, &changed, &stale);
    EXPECT(sides == PANEL_SIDE && changed == 0 && stale == 0 && strip[0] == 0);
    EXPECT(open_three(4, three) == PANEL_NONE);
    output_short = panel9_refresh(three, strip, 4, strip_output, PANEL_OUTPUT_LEN(4, 1), strip_marks, 4, 1, &drawn,
                                  &left);
    EXPECT(output_short == PANEL_OUTPUT && drawn == 0 && left == 0 && strip_marks[0] == 1);
    printf("three-times sessions of 683 by 1 and of 4 by 1, lent to nine-times calls: refused %" PRIu32 ", %" PRIu32
           "\n", sides, output_short);
}

int main(void)
{
    struct panel_item items[PANEL_LIST_LEN + 1] = {{0, 0, 0}};

    draw_picture();
    first_drawing();
    show_block();
    cursor();
    legend(items);
    legend_kept(items);
    settings();
    refused();
    other_kind();
    return 0;
}
