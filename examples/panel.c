/*
 * A small session, a legend that is locked, a bar graph, a whole picture three and nine times, and a page file, through
 * the C face. Every answer is held to what it must be. clarity.c beside this file has the settings of clarity.
 * Build in the repository: gcc -std=c99 -Iinclude examples/panel.c target/staticlib/libpanel.a -lm -o panel
 * Build in the archive:    gcc -std=c99 -Iinclude examples/panel.c lib/libpanel.a -lm -o panel
 * -lm is for fegetround, which this program calls; the library does not need it.
 */
#include <fenv.h>
#include <inttypes.h>
#include <stdio.h>
#include <string.h>
#include <xmmintrin.h>

#include "expect.h"
#include "panel.h"

enum { W = 8, H = 6, PIXELS = PANEL_PICTURE_LEN(W, H) };

/* The control's page: a white field with one black diagonal. */
static uint32_t picture[PANEL_PICTURE_LEN(W, H)];
static uint32_t output[PANEL_OUTPUT_LEN(W, H)];
static uint8_t marks[PANEL_MARKS_LEN(W, H)];
static float singles[PANEL_SINGLES_LEN(W, H)];
static uint8_t bytes[PANEL_BYTES_LEN(W, H)];

static uint32_t output9[PANEL_OUTPUT9_LEN(W, H)];
static uint32_t middle9[PANEL_MIDDLE9_LEN(W, H)];
static float singles9[PANEL_SINGLES9_LEN(W, H)];
static uint8_t bytes9[PANEL_BYTES9_LEN(W, H)];

static uint32_t header[PANEL_HEADER_LEN];

/* MXCSR without its six status flags, which a call may leave set. */
static unsigned control(void)
{
    return _mm_getcsr() & ~0x3fu;
}

/* What the library takes for granted. fegetround may read the x87 unit alone, and the library computes with SSE2: MXCSR
   too must have all exceptions masked, rounding to nearest, and nothing flushed to 0. */
static void environment(void)
{
    EXPECT(fegetround() == FE_TONEAREST);
    EXPECT(control() == 0x1f80u);
}

/* The library is that of the header, and the header's string spells its number. */
static void version(void)
{
    uint32_t number = panel_version();
    char spelled[32];

    EXPECT(number == PANEL_VERSION);
    snprintf(spelled, sizeof spelled, "%" PRIu32 ".%" PRIu32 ".%" PRIu32, number / 10000, number / 100 % 100,
             number % 100);
    EXPECT(strcmp(spelled, PANEL_VERSION_STRING) == 0);
    printf("version: as the header has it\n");
}

static void draw_picture(void)
{
    for (size_t i = 0; i < PIXELS; i++)
        picture[i] = i % W == i / W ? 0x00000000u : 0x00ffffffu;
}

/* An enlarged picture: # for a black word, a point for any other. */
static void print_output(void)
{
    for (size_t y = 0; y < 3 * H; y++) {
        for (size_t x = 0; x < 3 * W; x++)
            putchar((output[y * 3 * W + x] & 0x00ffffffu) == 0 ? '#' : '.');
        putchar('\n');
    }
}

static uint32_t open_session(uint32_t *stale)
{
    return panel_open(W, H, PANEL_STANDARD, 0.0f, picture, PANEL_PICTURE_LEN(W, H), output, PANEL_OUTPUT_LEN(W, H),
                      marks, PANEL_MARKS_LEN(W, H), header, stale);
}

static uint32_t refresh(uint32_t n, uint32_t *drawn, uint32_t *left)
{
    return panel_refresh(header, picture, PANEL_PICTURE_LEN(W, H), output, PANEL_OUTPUT_LEN(W, H), marks,
                         PANEL_MARKS_LEN(W, H), n, drawn, left);
}

static uint32_t paint(uint32_t column, uint32_t row, uint32_t word, uint32_t *changed, uint32_t *stale)
{
    return panel_paint(header, picture, PANEL_PICTURE_LEN(W, H), marks, PANEL_MARKS_LEN(W, H), column, row, word,
                       changed, stale);
}

static uint32_t show(uint32_t bx, uint32_t by, uint32_t words[PANEL_BLOCK_WORDS])
{
    return panel_show(header, output, PANEL_OUTPUT_LEN(W, H), marks, PANEL_MARKS_LEN(W, H), bx, by, words);
}

/* A session is opened, and a slow loop draws ten blocks at a time. */
static void first_drawing(void)
{
    uint32_t refusal, stale, drawn, left, words[PANEL_BLOCK_WORDS], before = PIXELS;

    refusal = open_session(&stale);
    EXPECT(refusal == PANEL_NONE);
    EXPECT(header[PANEL_HEADER_W] == W && header[PANEL_HEADER_H] == H && stale == PIXELS);
    for (size_t i = PANEL_HEADER_LEFT; i <= PANEL_HEADER_THRESHOLD; i++)
        EXPECT(header[i] == 0);
    printf("open: refusal %" PRIu32 ", header %" PRIu32 " by %" PRIu32 ", %" PRIu32 " stale\n", refusal,
           header[PANEL_HEADER_W], header[PANEL_HEADER_H], stale);
    refusal = show(2, 2, words);
    EXPECT(refusal == PANEL_STALE);
    for (size_t i = 0; i < PANEL_BLOCK_WORDS; i++)
        EXPECT(words[i] == 0);
    printf("show (2, 2): refusal %" PRIu32 "\n", refusal);
    do {
        EXPECT(refresh(10, &drawn, &left) == PANEL_NONE);
        EXPECT(drawn == (before < 10 ? before : 10) && left == before - drawn);
        printf("refresh: %" PRIu32 " drawn, %" PRIu32 " left\n", drawn, left);
        before = left;
    } while (left != 0);
}

/* A block is on the diagonal: its words are the page's two. */
static void show_block(void)
{
    static const uint32_t expected[PANEL_BLOCK_WORDS] = {0, 0, 0xffffffu, 0, 0, 0, 0xffffffu, 0, 0};
    uint32_t words[PANEL_BLOCK_WORDS];

    EXPECT(show(2, 2, words) == PANEL_NONE);
    EXPECT(memcmp(words, expected, sizeof words) == 0);
    printf("show (2, 2):");
    for (size_t i = 0; i < PANEL_BLOCK_WORDS; i++)
        printf(" %08" PRIx32, words[i]);
    putchar('\n');
    EXPECT(show(W, 2, words) == PANEL_OUTSIDE);
}

/* A paint, and a refresh of all that it made stale: columns 1 to 7 of rows 0 to 3, columns 4 to 7 of rows 4 and 5. */
static void change(void)
{
    uint32_t refusal, stale, changed, drawn, left;

    EXPECT(paint(7, 0, 0x00ffffffu, &changed, &stale) == PANEL_NONE);
    EXPECT(changed == 0 && stale == 0);
    printf("paint of an equal word: changed %" PRIu32 ", %" PRIu32 " stale\n", changed, stale);
    EXPECT(paint(7, 0, 0x00c00000u, &changed, &stale) == PANEL_NONE);
    EXPECT(changed == 1 && stale == 36 && picture[7] == 0x00c00000u);
    printf("paint of another word: changed %" PRIu32 ", %" PRIu32 " stale\n", changed, stale);
    refusal = paint(W, 0, 0, &changed, &stale);
    EXPECT(refusal == PANEL_OUTSIDE && changed == 0 && stale == 0);
    printf("paint outside: refusal %" PRIu32 "\n", refusal);
    EXPECT(refresh(UINT32_MAX, &drawn, &left) == PANEL_NONE);
    EXPECT(drawn == 36 && left == 0);
    printf("refresh: %" PRIu32 " drawn, %" PRIu32 " left\n", drawn, left);
}

/* A cursor on a page of 32 by 32: each paint makes a cross of 120 blocks stale, less what a border cuts off. */
static void cursor(void)
{
    enum { SIDE = 32, PAINTS = 3 };
    static uint32_t page[PANEL_PICTURE_LEN(SIDE, SIDE)], enlarged[PANEL_OUTPUT_LEN(SIDE, SIDE)];
    static uint8_t page_marks[PANEL_MARKS_LEN(SIDE, SIDE)];
    static const uint32_t at[PAINTS] = {10, 0, 31}, expected[PAINTS] = {120, 40, 33};
    uint32_t page_header[PANEL_HEADER_LEN], changed, stale, drawn, left;

    EXPECT(panel_open(SIDE, SIDE, PANEL_STANDARD, 0.0f, page, PANEL_PICTURE_LEN(SIDE, SIDE), enlarged,
                      PANEL_OUTPUT_LEN(SIDE, SIDE), page_marks, PANEL_MARKS_LEN(SIDE, SIDE), page_header,
                      &stale) == PANEL_NONE);
    for (size_t i = 0; i < PAINTS; i++) {
        EXPECT(panel_refresh(page_header, page, PANEL_PICTURE_LEN(SIDE, SIDE), enlarged, PANEL_OUTPUT_LEN(SIDE, SIDE),
                             page_marks, PANEL_MARKS_LEN(SIDE, SIDE), UINT32_MAX, &drawn, &left) == PANEL_NONE);
        EXPECT(drawn == stale && left == 0);
        EXPECT(panel_paint(page_header, page, PANEL_PICTURE_LEN(SIDE, SIDE), page_marks, PANEL_MARKS_LEN(SIDE, SIDE),
                           at[i], at[i], 0x00ffffffu, &changed, &stale) == PANEL_NONE);
        EXPECT(changed == 1 && stale == expected[i]);
        printf("cursor at (%" PRIu32 ", %" PRIu32 ") of 32 by 32: %" PRIu32 " stale\n", at[i], at[i], stale);
    }
}

/* A page with a legend of 6 by 3 pixels on it. */
enum { COLUMNS = 12, ROWS = 8, LEFT = 3, TOP = 2, WIDTH = 6, HEIGHT = 3 };

static const uint32_t RED = 0x00c00000u, WHITE = 0x00ffffffu;

static uint32_t page_picture[PANEL_PICTURE_LEN(COLUMNS, ROWS)], page_output[PANEL_OUTPUT_LEN(COLUMNS, ROWS)];
static uint8_t page_marks[PANEL_MARKS_LEN(COLUMNS, ROWS)];
static uint32_t page_header[PANEL_HEADER_LEN];

static uint32_t paint_page(uint32_t column, uint32_t row, uint32_t word, uint32_t *changed)
{
    uint32_t stale;

    return panel_paint(page_header, page_picture, PANEL_PICTURE_LEN(COLUMNS, ROWS), page_marks,
                       PANEL_MARKS_LEN(COLUMNS, ROWS), column, row, word, changed, &stale);
}

/* The header with the lock stands in force only where the lock was not refused. */
static uint32_t lock_page(uint32_t left, uint32_t top, uint32_t width, uint32_t height)
{
    uint32_t locked[PANEL_HEADER_LEN], refusal;

    refusal = panel_lock(page_header, left, top, width, height, locked);
    if (refusal == PANEL_NONE)
        memcpy(page_header, locked, sizeof page_header);
    for (size_t i = 0; refusal != PANEL_NONE && i < PANEL_HEADER_LEN; i++)
        EXPECT(locked[i] == 0);
    return refusal;
}

/* The builder paints the emergency legend and locks it. */
static void paint_legend(void)
{
    uint32_t stale, changed;

    EXPECT(panel_open(COLUMNS, ROWS, PANEL_STANDARD, 0.0f, page_picture, PANEL_PICTURE_LEN(COLUMNS, ROWS), page_output,
                      PANEL_OUTPUT_LEN(COLUMNS, ROWS), page_marks, PANEL_MARKS_LEN(COLUMNS, ROWS), page_header,
                      &stale) == PANEL_NONE);
    for (uint32_t i = 0; i < WIDTH * HEIGHT; i++)
        EXPECT(paint_page(LEFT + i % WIDTH, TOP + i / WIDTH, RED, &changed) == PANEL_NONE && changed == 1);
    EXPECT(lock_page(LEFT, TOP, WIDTH, HEIGHT) == PANEL_NONE);
    EXPECT(page_header[PANEL_HEADER_W] == COLUMNS && page_header[PANEL_HEADER_H] == ROWS);
    EXPECT(page_header[PANEL_HEADER_LEFT] == LEFT && page_header[PANEL_HEADER_TOP] == TOP);
    EXPECT(page_header[PANEL_HEADER_WIDTH] == WIDTH && page_header[PANEL_HEADER_HEIGHT] == HEIGHT);
    printf("legend: %d by %d at (%d, %d) locked\n", WIDTH, HEIGHT, LEFT, TOP);
}

/* A plug-in then paints every pixel of the page white: what it is refused is the legend, which keeps its red. */
static void plug_in(void)
{
    uint32_t refusal, changed, refused = 0;

    for (uint32_t i = 0; i < COLUMNS * ROWS; i++) {
        uint32_t x = i % COLUMNS, y = i / COLUMNS;
        int inside = LEFT <= x && x < LEFT + WIDTH && TOP <= y && y < TOP + HEIGHT;

        refusal = paint_page(x, y, WHITE, &changed);
        EXPECT(refusal == (inside ? PANEL_LOCKED : PANEL_NONE) && changed == !inside);
        EXPECT(page_picture[i] == (inside ? RED : WHITE));
        refused += refusal == PANEL_LOCKED;
    }
    printf("plug-in: %" PRIu32 " of %d paints refused\n", refused, COLUMNS * ROWS);
    EXPECT(paint_page(LEFT, TOP, RED, &changed) == PANEL_NONE && changed == 0);
    printf("the legend's own word: changed %" PRIu32 "\n", changed);
}

/* A lock past the picture is refused, and the one before stays; one of width 0 lets everything be painted. */
static void unlock(void)
{
    uint32_t refusal, changed;

    refusal = lock_page(COLUMNS - 1, 0, 2, 1);
    EXPECT(refusal == PANEL_LOCK && lock_page(UINT32_MAX, 0, 2, 1) == PANEL_LOCK);
    printf("lock past the picture: refusal %" PRIu32 "\n", refusal);
    refusal = paint_page(LEFT, TOP, WHITE, &changed);
    EXPECT(refusal == PANEL_LOCKED && changed == 0);
    printf("paint in the legend: refusal %" PRIu32 "\n", refusal);
    EXPECT(lock_page(UINT32_MAX, 7, 0, 1) == PANEL_NONE && page_header[PANEL_HEADER_LEFT] == UINT32_MAX);
    EXPECT(paint_page(LEFT, TOP, WHITE, &changed) == PANEL_NONE && changed == 1);
    printf("paint there, nothing locked: changed %" PRIu32 "\n", changed);
}

/* A load meter: four bars of ten pixels, which one list paints. Under them stands a scale, which is locked. */
enum { BARS = 4, LEVELS = 10, METER_W = 20, METER_H = 12, METER = PANEL_PICTURE_LEN(METER_W, METER_H) };

static const uint32_t BLACK = 0x00000000u;

struct meter {
    uint32_t header[PANEL_HEADER_LEN], picture[METER];
    uint8_t marks[METER];
};

static uint32_t meter_output[PANEL_OUTPUT_LEN(METER_W, METER_H)];

static void open_meter(struct meter *meter)
{
    uint32_t opened[PANEL_HEADER_LEN], stale, drawn, left;

    for (size_t i = 0; i < METER; i++)
        meter->picture[i] = i / METER_W == METER_H - 1 ? RED : WHITE;
    EXPECT(panel_open(METER_W, METER_H, PANEL_STANDARD, 0.0f, meter->picture, METER, meter_output,
                      PANEL_OUTPUT_LEN(METER_W, METER_H), meter->marks, METER, opened, &stale) == PANEL_NONE);
    EXPECT(panel_lock(opened, 0, METER_H - 1, METER_W, 1, meter->header) == PANEL_NONE);
    EXPECT(panel_refresh(meter->header, meter->picture, METER, meter_output, PANEL_OUTPUT_LEN(METER_W, METER_H),
                         meter->marks, METER, UINT32_MAX, &drawn, &left) == PANEL_NONE && left == 0);
}

/* The pixels of the bars, black up to each bar's level and white above. */
static void bars(const uint32_t levels[BARS], struct panel_item items[BARS * LEVELS])
{
    for (uint32_t i = 0; i < BARS * LEVELS; i++) {
        uint32_t bar = i / LEVELS, level = i % LEVELS;

        items[i].column = 2 + 3 * bar;
        items[i].row = METER_H - 2 - level;
        items[i].word = level < levels[bar] ? BLACK : WHITE;
    }
}

static uint32_t paint_bars(struct meter *meter, const struct panel_item *items, size_t items_len, uint32_t *stale)
{
    return panel_paint_list(meter->header, meter->picture, METER, meter->marks, METER, items, items_len, stale);
}

static void print_meter(const struct meter *meter)
{
    for (size_t y = 0; y < METER_H; y++) {
        for (size_t x = 0; x < METER_W; x++) {
            uint32_t word = meter->picture[y * METER_W + x];

            putchar(word == BLACK ? '#' : word == RED ? '=' : '.');
        }
        putchar('\n');
    }
}

/* The list leaves what its items leave one by one, on a meter of their own. */
static void bar_graph(struct meter *meter)
{
    static const uint32_t levels[BARS] = {3, 10, 0, 7};
    struct panel_item items[BARS * LEVELS];
    struct meter single;
    uint32_t refusal, stale, changed, counted = 0;

    open_meter(&single);
    open_meter(meter);
    bars(levels, items);
    for (size_t i = 0; i < BARS * LEVELS; i++)
        EXPECT(panel_paint(single.header, single.picture, METER, single.marks, METER, items[i].column, items[i].row,
                           items[i].word, &changed, &counted) == PANEL_NONE);
    refusal = paint_bars(meter, items, BARS * LEVELS, &stale);
    EXPECT(refusal == PANEL_NONE && stale == counted);
    EXPECT(memcmp(&single, meter, sizeof single) == 0);
    printf("bar graph: %d paints in one call, refusal %" PRIu32 ", %" PRIu32 " stale\n", BARS * LEVELS, refusal, stale);
    print_meter(meter);
}

/* A list that is refused leaves everything as it was; one of no items too. */
static void bar_graph_refused(struct meter *meter)
{
    static const uint32_t levels[BARS] = {10, 10, 10, 10};
    struct panel_item items[PANEL_LIST_LEN + 1] = {{0, 0, 0}};
    struct meter before = *meter;
    uint32_t stale, drawn;

    bars(levels, items);
    items[BARS * LEVELS] = (struct panel_item){2, METER_H - 1, BLACK};
    EXPECT(paint_bars(meter, items, BARS * LEVELS + 1, &stale) == PANEL_LOCKED && stale == 0);
    items[BARS * LEVELS - 1].column = METER_W;
    EXPECT(paint_bars(meter, items, BARS * LEVELS + 1, &stale) == PANEL_OUTSIDE && stale == 0);
    items[0].column = METER_W;
    EXPECT(paint_bars(meter, items, PANEL_LIST_LEN + 1, &stale) == PANEL_ITEMS && stale == 0);
    EXPECT(paint_bars(meter, items, 0, &stale) == PANEL_NONE && stale != 0);
    EXPECT(memcmp(&before, meter, sizeof before) == 0);
    printf("bar graph on the scale, past the page, of %d paints: refused %u, %u, %u\n", (int)PANEL_LIST_LEN + 1,
           PANEL_LOCKED, PANEL_OUTSIDE, PANEL_ITEMS);
    EXPECT(panel_refresh(meter->header, meter->picture, METER, meter_output, PANEL_OUTPUT_LEN(METER_W, METER_H),
                         meter->marks, METER, UINT32_MAX, &drawn, &stale) == PANEL_NONE && stale == 0);
    printf("bar graph: %" PRIu32 " blocks drawn\n", drawn);
}

static uint32_t scale_with(size_t bytes_len)
{
    return panel_scale(W, H, PANEL_STANDARD, 0.0f, picture, PANEL_PICTURE_LEN(W, H), output, PANEL_OUTPUT_LEN(W, H),
                       singles, PANEL_SINGLES_LEN(W, H), bytes, bytes_len);
}

/* What the session has drawn is what scale draws. */
static void whole(void)
{
    static uint32_t drawn[PANEL_OUTPUT_LEN(W, H)];
    uint32_t refusal;

    memcpy(drawn, output, sizeof drawn);
    memset(output, 0x55, sizeof output);
    refusal = scale_with(PANEL_BYTES_LEN(W, H));
    EXPECT(refusal == PANEL_NONE && memcmp(drawn, output, sizeof drawn) == 0);
    printf("scale: refusal %" PRIu32 "\n", refusal);
    print_output();
    refusal = scale_with(PANEL_BYTES_LEN(W, H) - 1);
    EXPECT(refusal == PANEL_SCRATCH && memcmp(drawn, output, sizeof drawn) == 0);
    printf("scale on one byte less: refusal %" PRIu32 "\n", refusal);
}

static uint32_t scale9x(uint32_t w)
{
    return panel_scale9x(w, H, PANEL_STANDARD, 0.0f, picture, PANEL_PICTURE_LEN(W, H), output9,
                         PANEL_OUTPUT9_LEN(W, H), middle9, PANEL_MIDDLE9_LEN(W, H), singles9,
                         PANEL_SINGLES9_LEN(W, H), bytes9, PANEL_BYTES9_LEN(W, H));
}

/* The middle is what scale draws, and the output what scale draws of the middle. */
static void nine(void)
{
    static uint32_t twice[PANEL_OUTPUT_LEN(3 * W, 3 * H)];
    uint32_t refusal = scale9x(W);

    EXPECT(refusal == PANEL_NONE && memcmp(middle9, output, sizeof middle9) == 0);
    printf("scale9x: refusal %" PRIu32 "\n", refusal);
    refusal = panel_scale(3 * W, 3 * H, PANEL_STANDARD, 0.0f, output, PANEL_PICTURE_LEN(3 * W, 3 * H), twice,
                          PANEL_OUTPUT_LEN(3 * W, 3 * H), singles9, PANEL_SINGLES_LEN(3 * W, 3 * H), bytes9,
                          PANEL_BYTES_LEN(3 * W, 3 * H));
    EXPECT(refusal == PANEL_NONE && sizeof twice == sizeof output9 && memcmp(twice, output9, sizeof twice) == 0);
    EXPECT(scale9x(PANEL_SIDE_9X + 1) == PANEL_SIDE && memcmp(twice, output9, sizeof twice) == 0);
}

/* A file that holds no page: the number is answered, the sides are 0, and the picture keeps its word. */
static void no_page(const char *what, const uint8_t *file, size_t file_len)
{
    uint32_t refusal, w, h, word[1] = {0x00445566u};

    refusal = panel_read_page(file, file_len, word, 1, &w, &h);
    EXPECT(refusal == PANEL_TRAILER && w == 0 && h == 0 && word[0] == 0x00445566u);
    printf("%s: refusal %" PRIu32 "\n", what, refusal);
}

/* A page is all of its file: with a byte less at either end, or with a second page behind it, there is none. */
static void page(void)
{
    static const uint8_t file[] = {0x33, 0x22, 0x11, 0x00, 1, 0, 1, 0, 16, 0, 0, 0, 0x50, 0x41, 0x47, 0x45};
    uint8_t two[2 * sizeof file];
    uint32_t refusal, w, h, word[1];

    refusal = panel_read_page(file, sizeof file, word, 1, &w, &h);
    EXPECT(refusal == PANEL_NONE && w == 1 && h == 1 && word[0] == 0x00112233u);
    printf("page: refusal %" PRIu32 ", %" PRIu32 " by %" PRIu32 ", %08" PRIx32 "\n", refusal, w, h, word[0]);
    no_page("page without its last byte", file, sizeof file - 1);
    no_page("page without its first byte", file + 1, sizeof file - 1);
    memcpy(two, file, sizeof file);
    memcpy(two + sizeof file, file, sizeof file);
    no_page("two pages in one file", two, sizeof two);
    no_page("page after a byte", two + sizeof file - 1, sizeof file + 1);
    EXPECT(panel_read_page(two + sizeof file, sizeof file, word, 1, &w, &h) == PANEL_NONE);
}

static void numbers(void)
{
    uint32_t refusal;
    float root, distance;

    refusal = panel_root(2.0f, &root);
    EXPECT(refusal == PANEL_NONE && root == 1.41421354f);
    printf("root of 2: refusal %" PRIu32 ", %.9g\n", refusal, (double)root);
    refusal = panel_root(-1.0f, &root);
    EXPECT(refusal == PANEL_OPERAND && root == 0.0f);
    printf("root of -1: refusal %" PRIu32 "\n", refusal);
    EXPECT(panel_distance(0x00112233u, 0xff112233u) == 0.0f);
    distance = panel_distance(0x00000000u, 0x00ffffffu);
    EXPECT(distance == 1.0f);
    printf("distance of black and white: %.9g\n", (double)distance);
}

int main(void)
{
    struct meter meter;

    environment();
    version();
    draw_picture();
    first_drawing();
    show_block();
    change();
    cursor();
    paint_legend();
    plug_in();
    unlock();
    bar_graph(&meter);
    bar_graph_refused(&meter);
    whole();
    nine();
    page();
    numbers();
    /* nothing but status flags was left in the floating-point unit */
    environment();
    return 0;
}
