/*
 * Settings of clarity through the C face: a picture three and nine times, which settings are lawful, and a session that
 * keeps its own. Every answer is held to what it must be.
 * Build in the repository: gcc -std=c99 -Iinclude examples/clarity.c target/staticlib/libpanel.a -o clarity
 * Build in the archive:    gcc -std=c99 -Iinclude examples/clarity.c lib/libpanel.a -o clarity
 */
#include <inttypes.h>
#include <math.h>
#include <stdio.h>
#include <string.h>

#include "expect.h"
#include "panel.h"

/* Two strokes, each of two shades that are 0.38 apart. The left one stands on white; the ground of the right one has a
   tone between its two shades, so that it is nearer to both than they are to each other. */
enum { W = 8, H = 4, PIXELS = PANEL_PICTURE_LEN(W, H), SETTINGS = 3 };

static const char *const shades[H] = {"#...*===", ".+..=-==", "..#.==*=", "...+===-"};

static const struct {
    char shown;
    uint32_t word;
} tones[] = {
    {'#', 0x00000000u}, {'+', 0x00606060u}, {'.', 0x00ffffffu},
    {'*', 0x00505050u}, {'-', 0x00b0b0b0u}, {'=', 0x00808080u},
};

enum { TONES = sizeof tones / sizeof tones[0] };

static uint32_t picture[PIXELS], output[SETTINGS][9 * PIXELS];

static void draw_picture(void)
{
    for (size_t i = 0; i < PIXELS; i++)
        for (size_t tone = 0; tone < TONES; tone++)
            if (shades[i / W][i % W] == tones[tone].shown)
                picture[i] = tones[tone].word;
}

static char shown(uint32_t word)
{
    size_t tone = 0;

    while (tone < TONES && tones[tone].word != word)
        tone++;
    EXPECT(tone < TONES);
    return tones[tone].shown;
}

static uint32_t scale(uint32_t clarity, float threshold, uint32_t enlarged[9 * PIXELS])
{
    static float singles[8 * PIXELS];
    static uint8_t bytes[8 * PIXELS];

    return panel_scale(W, H, clarity, threshold, picture, PIXELS, enlarged, 9 * PIXELS, singles, 8 * PIXELS, bytes,
                       8 * PIXELS);
}

/* The strokes at the standard, at a lower threshold, which smooths neither, and behind the gate, which lets the left
   one be smoothed alone. */
static void whole(void)
{
    uint32_t half[9 * PIXELS];

    EXPECT(scale(PANEL_STANDARD, NAN, output[0]) == PANEL_NONE);
    EXPECT(scale(PANEL_THRESHOLD, 0.25f, output[1]) == PANEL_NONE);
    EXPECT(scale(PANEL_GATED, 0.5f, output[2]) == PANEL_NONE);
    EXPECT(scale(PANEL_THRESHOLD, 0.5f, half) == PANEL_NONE);
    EXPECT(memcmp(half, output[0], sizeof half) == 0);
    printf("%-26s%-26s%s\n", "standard", "threshold 0.25", "gated 0.5");
    for (size_t y = 0; y < 3 * H; y++) {
        for (size_t x = 0; x < SETTINGS * 3 * W; x++) {
            size_t setting = x / (3 * W), column = x % (3 * W);

            printf("%s%c", setting != 0 && column == 0 ? "  " : "", shown(output[setting][y * 3 * W + column]));
        }
        putchar('\n');
    }
}

static uint32_t enlarged9[81 * PIXELS], middle9[9 * PIXELS];
static float singles9[72 * PIXELS];
static uint8_t bytes9[72 * PIXELS];

static uint32_t scale9x(float threshold)
{
    return panel_scale9x(W, H, PANEL_GATED, threshold, picture, PIXELS, enlarged9, 81 * PIXELS, middle9, 9 * PIXELS,
                         singles9, 72 * PIXELS, bytes9, 72 * PIXELS);
}

/* Nine times, both times behind the gate. */
static void nine(void)
{
    static uint32_t twice[81 * PIXELS];
    uint32_t refusal = scale9x(0.5f);

    EXPECT(refusal == PANEL_NONE && memcmp(middle9, output[2], sizeof middle9) == 0);
    printf("scale9x, gated 0.5: refusal %" PRIu32 "\n", refusal);
    EXPECT(panel_scale(3 * W, 3 * H, PANEL_GATED, 0.5f, middle9, 9 * PIXELS, twice, 81 * PIXELS, singles9, 72 * PIXELS,
                       bytes9, 72 * PIXELS) == PANEL_NONE);
    EXPECT(memcmp(twice, enlarged9, sizeof twice) == 0);
    refusal = scale9x(0.0f);
    EXPECT(refusal == PANEL_CLARITY && memcmp(twice, enlarged9, sizeof twice) == 0);
    printf("scale9x, gated 0: refusal %" PRIu32 "\n", refusal);
}

static float single(uint32_t pattern)
{
    float value;

    memcpy(&value, &pattern, sizeof value);
    return value;
}

/* What is lawful and what is not; a refused call keeps the output. */
static void lawful(void)
{
    static const struct {
        const char *name;
        uint32_t clarity, pattern, refusal;
    } cases[] = {
        {"threshold of the smallest float above 0", PANEL_THRESHOLD, 0x00000001u, PANEL_NONE},
        {"gated 1", PANEL_GATED, 0x3f800000u, PANEL_NONE},
        {"threshold 0", PANEL_THRESHOLD, 0x00000000u, PANEL_CLARITY},
        {"gated -0", PANEL_GATED, 0x80000000u, PANEL_CLARITY},
        {"threshold -0.5", PANEL_THRESHOLD, 0xbf000000u, PANEL_CLARITY},
        {"threshold of the float above 1", PANEL_THRESHOLD, 0x3f800001u, PANEL_CLARITY},
        {"gated infinity", PANEL_GATED, 0x7f800000u, PANEL_CLARITY},
        {"threshold -infinity", PANEL_THRESHOLD, 0xff800000u, PANEL_CLARITY},
        {"threshold NaN", PANEL_THRESHOLD, 0x7fc00000u, PANEL_CLARITY},
        {"gated NaN", PANEL_GATED, 0xffc00001u, PANEL_CLARITY},
        {"clarity 3, 0.5", 3, 0x3f000000u, PANEL_CLARITY},
    };
    uint32_t enlarged[9 * PIXELS], before[9 * PIXELS];

    for (size_t i = 0; i < sizeof cases / sizeof cases[0]; i++) {
        uint32_t refusal;

        memset(enlarged, 0x55, sizeof enlarged);
        memcpy(before, enlarged, sizeof before);
        refusal = scale(cases[i].clarity, single(cases[i].pattern), enlarged);
        EXPECT(refusal == cases[i].refusal);
        EXPECT((memcmp(enlarged, before, sizeof before) == 0) == (refusal == PANEL_CLARITY));
        printf("%s: refusal %" PRIu32 "\n", cases[i].name, refusal);
    }
}

struct session {
    uint32_t header[PANEL_HEADER_LEN], picture[PIXELS], output[9 * PIXELS];
    uint8_t marks[PIXELS];
};

static uint32_t open_session(struct session *session, float threshold, uint32_t *stale)
{
    memcpy(session->picture, picture, sizeof session->picture);
    return panel_open(W, H, PANEL_GATED, threshold, session->picture, PIXELS, session->output, 9 * PIXELS,
                      session->marks, PIXELS, session->header, stale);
}

static uint32_t refresh(struct session *session, uint32_t *drawn, uint32_t *left)
{
    return panel_refresh(session->header, session->picture, PIXELS, session->output, 9 * PIXELS, session->marks, PIXELS,
                         UINT32_MAX, drawn, left);
}

/* A session behind the gate keeps its setting in the header, through a lock too, and draws what scale draws at it. */
static void session_at_a_setting(struct session *session)
{
    uint32_t stale, drawn, left, locked[PANEL_HEADER_LEN];

    memset(session, 0x55, sizeof *session);
    EXPECT(open_session(session, -0.0f, &stale) == PANEL_CLARITY && stale == 0);
    for (size_t i = 0; i < PANEL_HEADER_LEN; i++)
        EXPECT(session->header[i] == 0);
    EXPECT(session->marks[0] == 0x55 && session->output[0] == 0x55555555u);
    EXPECT(open_session(session, 0.5f, &stale) == PANEL_NONE && stale == PIXELS);
    printf("session, gated 0.5: header ends with %" PRIu32 " and %08" PRIx32 "\n",
           session->header[PANEL_HEADER_CLARITY], session->header[PANEL_HEADER_THRESHOLD]);
    EXPECT(session->header[PANEL_HEADER_CLARITY] == PANEL_GATED);
    EXPECT(session->header[PANEL_HEADER_THRESHOLD] == 0x3f000000u);
    EXPECT(panel_lock(session->header, 0, 0, 1, 1, locked) == PANEL_NONE);
    EXPECT(memcmp(locked + PANEL_HEADER_CLARITY, session->header + PANEL_HEADER_CLARITY, 2 * sizeof *locked) == 0);
    EXPECT(refresh(session, &drawn, &left) == PANEL_NONE && drawn == PIXELS && left == 0);
    EXPECT(memcmp(session->output, output[2], sizeof session->output) == 0);
    printf("session, gated 0.5: %" PRIu32 " drawn, as scale draws them\n", drawn);
}

/* A header whose pattern is that of no threshold is refused by every call, after 10 and 4 and before 5 and 12;
   everything stays. */
static void unlawful_header(struct session *session)
{
    static const struct panel_item items[PANEL_LIST_LEN + 1] = {{0, 0, 0}};
    struct session before;
    uint32_t refusals[5], a, b, words[PANEL_BLOCK_WORDS], locked[PANEL_HEADER_LEN];

    session->header[PANEL_HEADER_THRESHOLD] = 0x3f800001u;
    before = *session;
    refusals[0] = panel_paint(session->header, session->picture, PIXELS, session->marks, PIXELS, W, 0, 0, &a, &b);
    EXPECT(a == 0 && b == 0);
    refusals[1] = panel_paint_list(session->header, session->picture, PIXELS, session->marks, PIXELS, items,
                                   PANEL_LIST_LEN + 1, &a);
    EXPECT(a == 0);
    refusals[2] = refresh(session, &a, &b);
    EXPECT(a == 0 && b == 0);
    refusals[3] = panel_show(session->header, session->output, 9 * PIXELS, session->marks, PIXELS, W, 0, words);
    refusals[4] = panel_lock(session->header, 0, 0, 1, 1, locked);
    EXPECT(words[0] == 0 && locked[PANEL_HEADER_W] == 0 && locked[PANEL_HEADER_CLARITY] == 0);
    printf("header with the pattern 3f800001: paint, list, refresh, show, lock refused");
    for (size_t i = 0; i < sizeof refusals / sizeof refusals[0]; i++) {
        EXPECT(refusals[i] == PANEL_CLARITY);
        printf(" %" PRIu32, refusals[i]);
    }
    putchar('\n');
    EXPECT(panel_show(session->header, session->output, 9 * PIXELS, session->marks, PIXELS - 1, 0, 0, words)
           == PANEL_SCRATCH);
    EXPECT(panel_lock(session->header, 0, 0, W + 1, 1, locked) == PANEL_LOCK);
    EXPECT(memcmp(session, &before, sizeof before) == 0);
}

int main(void)
{
    struct session session;

    draw_picture();
    whole();
    nine();
    lawful();
    session_at_a_setting(&session);
    unlawful_header(&session);
    return 0;
}
