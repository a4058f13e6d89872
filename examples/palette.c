/*
 * A page on glass of 16 fixed colours, through the C face: which entry of the palette a colour goes to, ties, the page
 * three and nine times, and what is refused. Every answer is held to what it must be.
 * With the name of a page file it prints that page three times as large on this glass, in the text of page3x, which
 * pages/look of the repository draws: palette pages/offset.page | pages/look -o OUT.png
 * Build in the repository: gcc -std=c99 -Iinclude examples/palette.c target/staticlib/libpanel.a -o palette
 * Build in the archive:    gcc -std=c99 -Iinclude examples/palette.c lib/libpanel.a -o palette
 */
#include <inttypes.h>
#include <stdio.h>
#include <stdlib.h>
#include <string.h>

#include "expect.h"
#include "panel.h"

/* The colours of the glass. An entry's top byte is its place, and every output word is an entry, top byte and all: so
   the firmware drives the glass by the top byte of each output word, and has no colour to look for. */
enum { ENTRIES = 16 };

static const uint32_t glass[ENTRIES] = {
    0x00000000u, 0x010000aau, 0x0200aa00u, 0x0300aaaau, 0x04aa0000u, 0x05aa00aau, 0x06aa5500u, 0x07aaaaaau,
    0x08555555u, 0x095555ffu, 0x0a55ff55u, 0x0b55ffffu, 0x0cff5555u, 0x0dff55ffu, 0x0effff55u, 0x0fffffffu,
};

/* What drives the glass: the top byte of an output word, which is the place of its colour. */
static uint32_t place(uint32_t word)
{
    EXPECT(word >> 24 < ENTRIES && glass[word >> 24] == word);
    return word >> 24;
}

/* N as the header has it. */
static uint32_t plain_nearness(uint32_t p, uint32_t q)
{
    int32_t r = p >> 16 & 255, g = p >> 8 & 255, b = p & 255;
    int32_t s = q >> 16 & 255, t = q >> 8 & 255, c = q & 255;

    return (uint32_t)((1020 + r + s) * (r - s) * (r - s) + 2040 * (g - t) * (g - t)
                      + (1530 - r - s) * (b - c) * (b - c));
}

/* The nearest entry by a plain search: a later one takes the place of an earlier one only where it is nearer. */
static uint32_t plain_nearest(const uint32_t *palette, size_t palette_len, uint32_t word)
{
    uint32_t best = palette[0];

    for (size_t i = 0; i < palette_len; i++) {
        uint32_t n = plain_nearness(palette[i], word);

        EXPECT(panel_nearness(palette[i], word) == n && panel_nearness(word, palette[i]) == n);
        if (n < plain_nearness(best, word))
            best = palette[i];
    }
    return best;
}

/* The entry that the library takes: a picture of this one word is replaced, and its block has that entry alone. */
static uint32_t entry_of(const uint32_t *palette, size_t palette_len, uint32_t word)
{
    uint32_t replaced[1], output[9];
    float singles[8];
    uint8_t bytes[8];

    EXPECT(panel_scale_palette(1, 1, PANEL_STANDARD, 0.0f, &word, 1, palette, palette_len, replaced, 1, output, 9,
                               singles, 8, bytes, 8) == PANEL_NONE);
    EXPECT(replaced[0] == plain_nearest(palette, palette_len, word));
    for (size_t i = 0; i < 9; i++)
        EXPECT(output[i] == replaced[0]);
    return replaced[0];
}

/* Colours and the entries that they go to: the four of pages/offset.page, greys, orange, and an entry's own colour with
   a top byte that is not looked at. */
static void colours(void)
{
    static const uint32_t words[] = {
        0x00101820u, 0x0030e060u, 0x00f0b020u, 0x00e02020u, 0x00404040u, 0x00808080u, 0x00d0d0d0u, 0x00ff8000u,
        0x7faa5500u,
    };
    uint32_t largest = panel_nearness(0x00000000u, 0x00ffffffu);

    EXPECT(largest == 298464750u && panel_nearness(0xff123456u, 0x00123456u) == 0);
    printf("N of black and white: %" PRIu32 "\n", largest);
    for (size_t i = 0; i < sizeof words / sizeof words[0]; i++) {
        uint32_t entry = entry_of(glass, ENTRIES, words[i]);

        printf("%08" PRIx32 " goes to place %" PRIx32 ", %08" PRIx32 ", N %" PRIu32 "\n", words[i], place(entry),
               entry, panel_nearness(entry, words[i]));
    }
}

/* Of two entries that are equally near the one at the lower place is taken, in whichever order they stand. */
static void tie(uint32_t word, uint32_t a, uint32_t b)
{
    const uint32_t one[] = {0x00ffffffu, a, b}, other[] = {0x00ffffffu, b, a};
    uint32_t n = panel_nearness(a, word);

    EXPECT(a != b && panel_nearness(b, word) == n && n < panel_nearness(one[0], word));
    EXPECT(entry_of(one, 3, word) == a && entry_of(other, 3, word) == b);
    printf("%08" PRIx32 " has N %" PRIu32 " to %08" PRIx32 " and to %08" PRIx32 ": it goes to the lower place\n", word,
           n, a, b);
}

/* A page of a few shades: a green stroke whose edges have a tone between it and its ground, and a red lamp with a
   bright spot. The top bytes are the control's own. */
enum { W = 6, H = 4, PIXELS = PANEL_PICTURE_LEN(W, H) };

static const uint32_t page[PIXELS] = {
    0x4030e060u, 0x40209040u, 0x00101820u, 0x00101820u, 0x00101820u, 0x00101820u,
    0x40209040u, 0x4030e060u, 0x40209040u, 0x000c1418u, 0x80e02020u, 0x80e02020u,
    0x000c1418u, 0x40209040u, 0x4030e060u, 0x40209040u, 0x80e02020u, 0x80ff7060u,
    0x000c1418u, 0x000c1418u, 0x40209040u, 0x4030e060u, 0x40209040u, 0x80a01818u,
};

/* All that a call writes, with room for nine times, and for an element more where one is lent. */
struct lent {
    uint32_t replaced[PANEL_REPLACED_LEN(W, H) + 1], output[PANEL_OUTPUT9_LEN(W, H) + 1];
    uint32_t middle[PANEL_MIDDLE9_LEN(W, H)];
    float singles[PANEL_SINGLES9_LEN(W, H)];
    uint8_t bytes[PANEL_BYTES9_LEN(W, H)];
};

/* What a call is given beside the page: the columns, the setting, the palette, and how many elements three of the
   buffers have beyond what W columns need; with -1 they are short. */
struct given {
    uint32_t w, clarity;
    float threshold;
    const uint32_t *palette;
    size_t palette_len;
    int picture, output, replaced;
};

typedef uint32_t call(struct lent *lent, const struct given *given);

static uint32_t three(struct lent *lent, const struct given *given)
{
    return panel_scale_palette(given->w, H, given->clarity, given->threshold, page, PIXELS + given->picture,
                               given->palette, given->palette_len,
                               lent->replaced, PANEL_REPLACED_LEN(W, H) + given->replaced,
                               lent->output, PANEL_OUTPUT_LEN(W, H) + given->output,
                               lent->singles, PANEL_SINGLES_LEN(W, H), lent->bytes, PANEL_BYTES_LEN(W, H));
}

static uint32_t nine(struct lent *lent, const struct given *given)
{
    return panel_scale9x_palette(given->w, H, given->clarity, given->threshold, page, PIXELS + given->picture,
                                 given->palette, given->palette_len,
                                 lent->replaced, PANEL_REPLACED_LEN(W, H) + given->replaced,
                                 lent->output, PANEL_OUTPUT9_LEN(W, H) + given->output,
                                 lent->middle, PANEL_MIDDLE9_LEN(W, H),
                                 lent->singles, PANEL_SINGLES9_LEN(W, H), lent->bytes, PANEL_BYTES9_LEN(W, H));
}

/* The calls without a palette, of a page that was replaced before. */

static uint32_t plain_three(struct lent *lent, const struct given *given)
{
    return panel_scale(given->w, H, given->clarity, given->threshold, lent->replaced, PANEL_REPLACED_LEN(W, H),
                       lent->output, PANEL_OUTPUT_LEN(W, H), lent->singles, PANEL_SINGLES_LEN(W, H),
                       lent->bytes, PANEL_BYTES_LEN(W, H));
}

static uint32_t plain_nine(struct lent *lent, const struct given *given)
{
    return panel_scale9x(given->w, H, given->clarity, given->threshold, lent->replaced, PANEL_REPLACED_LEN(W, H),
                         lent->output, PANEL_OUTPUT9_LEN(W, H), lent->middle, PANEL_MIDDLE9_LEN(W, H),
                         lent->singles, PANEL_SINGLES9_LEN(W, H), lent->bytes, PANEL_BYTES9_LEN(W, H));
}

/* What a call answers. It has to leave all buffers, also past their lengths, as the plain search and the plain call
   leave them; where it is refused, as they were. */
static uint32_t answer(call *with_palette, call *plain, struct lent *lent, const struct given *given)
{
    static struct lent expected;
    uint32_t refusal;

    memset(lent, 0x55, sizeof *lent);
    memset(&expected, 0x55, sizeof expected);
    refusal = with_palette(lent, given);
    if (refusal == PANEL_NONE) {
        for (size_t i = 0; i < PANEL_PICTURE_LEN(given->w, H); i++)
            expected.replaced[i] = plain_nearest(given->palette, given->palette_len, page[i]);
        EXPECT(plain(&expected, given) == PANEL_NONE);
    }
    EXPECT(memcmp(lent, &expected, sizeof expected) == 0);
    return refusal;
}

static void print_places(const uint32_t *words, size_t w, size_t h)
{
    for (size_t i = 0; i < w * h; i++)
        printf("%" PRIx32 "%s", place(words[i]), (i + 1) % w == 0 ? "\n" : "");
}

/* The page on the glass at the standard setting, by the places that drive it; and the same calls behind the gate. */
static void on_glass(void)
{
    static const struct given standard = {W, PANEL_STANDARD, 0.0f, glass, ENTRIES, 0, 1, 1};
    static const struct given gated = {W, PANEL_GATED, 0.3f, glass, ENTRIES, 0, 1, 1};
    static struct lent lent;

    EXPECT(answer(three, plain_three, &lent, &standard) == PANEL_NONE);
    printf("the replaced page, by places:\n");
    print_places(lent.replaced, W, H);
    printf("three times, by the top bytes of the output:\n");
    print_places(lent.output, 3 * W, 3 * H);
    EXPECT(answer(three, plain_three, &lent, &gated) == PANEL_NONE);
    printf("three times: as scale draws the replaced page\n");
    EXPECT(answer(nine, plain_nine, &lent, &standard) == PANEL_NONE);
    for (size_t i = 0; i < PANEL_OUTPUT9_LEN(W, H); i++)
        place(lent.output[i]);
    EXPECT(answer(nine, plain_nine, &lent, &gated) == PANEL_NONE);
    printf("nine times: as scale9x draws the replaced page\n");
}

/* Greys, one more than a palette may have. */
static uint32_t greys[PANEL_PALETTE_LEN + 1];

/* What is refused, three times and nine times. The first lines have several faults each, and are refused for the first
   of these in the order of the checks. */
static void refused(void)
{
    static const struct {
        const char *name;
        struct given given;
        uint32_t three, nine;
    } cases[] = {
        {"2049 by 4", {PANEL_SIDE_3X + 1, PANEL_GATED, 0.0f, greys, 0, -1, -1, -1}, PANEL_SIDE, PANEL_SIDE},
        {"683 by 4", {PANEL_SIDE_9X + 1, PANEL_GATED, 0.0f, greys, 0, -1, -1, -1}, PANEL_PICTURE, PANEL_SIDE},
        {"picture short", {W, PANEL_GATED, 0.0f, greys, 0, -1, -1, -1}, PANEL_PICTURE, PANEL_PICTURE},
        {"output short", {W, PANEL_GATED, 0.0f, greys, 0, 0, -1, -1}, PANEL_OUTPUT, PANEL_OUTPUT},
        {"replaced short", {W, PANEL_GATED, 0.0f, greys, 0, 0, 0, -1}, PANEL_SCRATCH, PANEL_SCRATCH},
        {"gated 0", {W, PANEL_GATED, 0.0f, greys, 0, 0, 0, 0}, PANEL_CLARITY, PANEL_CLARITY},
        {"no entry", {W, PANEL_GATED, 1.0f, greys, 0, 0, 0, 0}, PANEL_PALETTE, PANEL_PALETTE},
        {"257 entries", {W, PANEL_GATED, 1.0f, greys, 257, 0, 0, 0}, PANEL_PALETTE, PANEL_PALETTE},
        {"256 entries", {W, PANEL_GATED, 1.0f, greys, 256, 0, 0, 0}, PANEL_NONE, PANEL_NONE},
        {"1 entry", {W, PANEL_STANDARD, 0.0f, greys, 1, 0, 0, 0}, PANEL_NONE, PANEL_NONE},
        {"1 entry, replaced short", {W, PANEL_STANDARD, 0.0f, greys, 1, 0, 0, -1}, PANEL_SCRATCH, PANEL_SCRATCH},
        {"0 by 4, no entry", {0, PANEL_STANDARD, 0.0f, greys, 0, 0, 0, 0}, PANEL_PALETTE, PANEL_PALETTE},
        {"0 by 4, 257 entries", {0, PANEL_STANDARD, 0.0f, greys, 257, 0, 0, 0}, PANEL_PALETTE, PANEL_PALETTE},
        {"0 by 4, 1 entry", {0, PANEL_STANDARD, 0.0f, greys, 1, 0, 0, 0}, PANEL_NONE, PANEL_NONE},
    };
    static struct lent lent;

    for (uint32_t i = 0; i < PANEL_PALETTE_LEN; i++)
        greys[i] = 0x01010101u * i;
    for (size_t i = 0; i < sizeof cases / sizeof cases[0]; i++) {
        uint32_t at_three = answer(three, plain_three, &lent, &cases[i].given);
        uint32_t at_nine = answer(nine, plain_nine, &lent, &cases[i].given);

        EXPECT(at_three == cases[i].three && at_nine == cases[i].nine);
        printf("%s: refusal %" PRIu32 ", nine times %" PRIu32 "\n", cases[i].name, at_three, at_nine);
    }
}

static void require(int holds, const char *name, const char *what)
{
    if (holds)
        return;
    fprintf(stderr, "palette: %s: %s\n", name, what);
    exit(EXIT_FAILURE);
}

/* The most pixels of a page that page3x takes, and the bytes of its file. */
enum { LARGEST = 1024, FILE_BYTES = 4 * LARGEST + 12 };

static void read_page(const char *name, uint32_t picture[LARGEST], uint32_t *w, uint32_t *h)
{
    static uint8_t file[FILE_BYTES + 1];
    FILE *opened = fopen(name, "rb");
    size_t file_len;

    require(opened != NULL, name, "the file cannot be opened");
    file_len = fread(file, 1, sizeof file, opened);
    require(!ferror(opened), name, "the file cannot be read");
    fclose(opened);
    require(file_len <= FILE_BYTES, name, "the file is longer than 4108 bytes, which is a page of 1024 pixels");
    require(panel_read_page(file, file_len, picture, LARGEST, w, h) == PANEL_NONE, name,
            "the file is no page, or one with a side above 2048");
}

/* A page three times as large on the glass, in the text of page3x. The top bytes are cleared: they are places, and
   pages/look, which shows colours, would say that it does not show them. */
static void print_page(const char *name)
{
    static uint32_t picture[LARGEST], replaced[LARGEST], output[9 * LARGEST];
    static float singles[8 * LARGEST];
    static uint8_t bytes[8 * LARGEST];
    uint32_t w, h;

    read_page(name, picture, &w, &h);
    EXPECT(panel_scale_palette(w, h, PANEL_STANDARD, 0.0f, picture, LARGEST, glass, ENTRIES, replaced, LARGEST, output,
                               9 * LARGEST, singles, 8 * LARGEST, bytes, 8 * LARGEST) == PANEL_NONE);
    printf("%" PRIu32 " %" PRIu32 "\n", 3 * w, 3 * h);
    for (size_t y = 0; y < 3 * h; y++) {
        for (size_t x = 0; x < 3 * w; x++)
            printf("%s%08" PRIx32, x == 0 ? "" : " ", output[y * 3 * w + x] & 0x00ffffffu);
        putchar('\n');
    }
    require(fflush(stdout) == 0 && !ferror(stdout), name, "the text could not be written whole");
}

int main(int argc, char **argv)
{
    require(argc <= 2, "usage", "palette [PAGE]");
    if (argc == 2) {
        print_page(argv[1]);
        return 0;
    }
    colours();
    /* two entries that are 16 steps of blue away, to either side; and two that differ in the top byte alone */
    tie(0x00808080u, 0x01808070u, 0x02808090u);
    tie(0x00e02020u, 0x01aa0000u, 0x02aa0000u);
    on_glass();
    refused();
    return 0;
}
