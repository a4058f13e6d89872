/*
 * Holds the stack that each call takes to PANEL_STACK_BYTES: stack PAGE [--figures], PAGE being a page file.
 * A call is made on a thread whose stack was filled with one byte value before; from the lowest byte on that has
 * another value afterwards, the stack was used. What an empty call uses in the same way is taken off. The pictures are
 * larger than a tile of 16 by 12 blocks and no multiple of it: the page, repeated; noise; one colour. Each is enlarged
 * at every kind of clarity; the palette has 256 entries. --figures prints what each call takes at most.
 */
#define _POSIX_C_SOURCE 200809L

#include <pthread.h>
#include <stdio.h>
#include <stdlib.h>
#include <string.h>

#include "panel.h"

enum { W = 67, H = 45, STACK = 1 << 18, FILLED = 0xa5, FILE_BYTES = 4108 };

static uint32_t picture[PANEL_PICTURE_LEN(W, H)];
static uint32_t output[PANEL_OUTPUT_LEN(W, H)];
static uint8_t marks[PANEL_MARKS_LEN(W, H)];
static uint32_t output9[PANEL_OUTPUT9_LEN(W, H)];
static uint32_t middle[PANEL_MIDDLE9_LEN(W, H)];
static float singles[PANEL_SINGLES9_LEN(W, H)];
static uint8_t bytes[PANEL_BYTES9_LEN(W, H)];
static uint32_t header[PANEL_HEADER_LEN];
static uint32_t palette[PANEL_PALETTE_LEN];
static uint32_t replaced[PANEL_REPLACED_LEN(W, H)];

/* The clarity at which the calls are made, with a threshold of 0.3 where it has one. */
static uint32_t clarity;
static const float threshold = 0.3f;

static uint8_t file[FILE_BYTES];
static size_t file_len;
static uint32_t page[FILE_BYTES / 4];
static uint32_t page_w, page_h;

static uint8_t *stack;

/* The calls of a session, three times or nine times, and the output that they are lent. */
struct session {
    uint32_t (*open)(uint32_t, uint32_t, uint32_t, float, const uint32_t *, size_t, uint32_t *, size_t, uint8_t *,
                     size_t, uint32_t *, uint32_t *);
    uint32_t (*lock)(const uint32_t *, uint32_t, uint32_t, uint32_t, uint32_t, uint32_t *);
    uint32_t (*paint)(const uint32_t *, uint32_t *, size_t, uint8_t *, size_t, uint32_t, uint32_t, uint32_t, uint32_t *,
                      uint32_t *);
    uint32_t (*paint_list)(const uint32_t *, uint32_t *, size_t, uint8_t *, size_t, const struct panel_item *, size_t,
                           uint32_t *);
    uint32_t (*refresh)(const uint32_t *, const uint32_t *, size_t, uint32_t *, size_t, uint8_t *, size_t, uint32_t,
                        uint32_t *, uint32_t *);
    uint32_t (*show)(const uint32_t *, const uint32_t *, size_t, const uint8_t *, size_t, uint32_t, uint32_t,
                     uint32_t *);
    uint32_t *output;
    size_t output_len;
};

static const struct session three = {
    panel_open, panel_lock, panel_paint, panel_paint_list, panel_refresh, panel_show,
    output, PANEL_OUTPUT_LEN(W, H),
};
static const struct session nine = {
    panel9_open, panel9_lock, panel9_paint, panel9_paint_list, panel9_refresh, panel9_show,
    output9, PANEL_OUTPUT9_LEN(W, H),
};

/* The session whose calls are measured. */
static const struct session *session;

static void require(int holds, const char *what)
{
    if (holds)
        return;
    fprintf(stderr, "stack: %s\n", what);
    exit(EXIT_FAILURE);
}

/* The calls that are measured. Each must answer: a refused call would take less. */

static void call_open(void)
{
    uint32_t stale;

    require(session->open(W, H, clarity, threshold, picture, PANEL_PICTURE_LEN(W, H), session->output,
                          session->output_len, marks, PANEL_MARKS_LEN(W, H), header, &stale) == PANEL_NONE,
            "open was refused");
}

static void call_refresh(uint32_t n)
{
    uint32_t drawn, left;

    require(session->refresh(header, picture, PANEL_PICTURE_LEN(W, H), session->output, session->output_len, marks,
                             PANEL_MARKS_LEN(W, H), n, &drawn, &left) == PANEL_NONE && drawn != 0,
            "refresh drew nothing");
}

static void call_refresh_some(void) { call_refresh(3 * W / 2); }

static void call_refresh_all(void) { call_refresh(UINT32_MAX); }

static void call_paint(void)
{
    uint32_t changed, stale, word = ~picture[20 * W + 33];

    require(session->paint(header, picture, PANEL_PICTURE_LEN(W, H), marks, PANEL_MARKS_LEN(W, H), 33, 20, word,
                           &changed, &stale) == PANEL_NONE && changed == 1, "paint changed nothing");
}

static void call_paint_list(void)
{
    struct panel_item items[PANEL_LIST_LEN];
    uint32_t stale;

    for (uint32_t i = 0; i < PANEL_LIST_LEN; i++)
        items[i] = (struct panel_item){i, 3, ~picture[3 * W + i]};
    require(session->paint_list(header, picture, PANEL_PICTURE_LEN(W, H), marks, PANEL_MARKS_LEN(W, H), items,
                                PANEL_LIST_LEN, &stale) == PANEL_NONE && stale != 0,
            "the list of paints changed nothing");
}

static void call_show(void)
{
    uint32_t words[PANEL_BLOCK9_WORDS];

    require(session->show(header, session->output, session->output_len, marks, PANEL_MARKS_LEN(W, H), 33, 20, words)
                == PANEL_NONE, "show was refused");
}

static void call_lock(void)
{
    uint32_t locked[PANEL_HEADER_LEN];

    require(session->lock(header, 33, 20, W - 33, H - 20, locked) == PANEL_NONE, "lock was refused");
}

static void call_scale(void)
{
    require(panel_scale(W, H, clarity, threshold, picture, PANEL_PICTURE_LEN(W, H), output, PANEL_OUTPUT_LEN(W, H),
                        singles, PANEL_SINGLES_LEN(W, H), bytes, PANEL_BYTES_LEN(W, H)) == PANEL_NONE,
            "scale was refused");
}

static void call_scale9x(void)
{
    require(panel_scale9x(W, H, clarity, threshold, picture, PANEL_PICTURE_LEN(W, H), output9, PANEL_OUTPUT9_LEN(W, H),
                          middle, PANEL_MIDDLE9_LEN(W, H), singles, PANEL_SINGLES9_LEN(W, H), bytes,
                          PANEL_BYTES9_LEN(W, H)) == PANEL_NONE, "scale9x was refused");
}

static void call_scale_palette(void)
{
    require(panel_scale_palette(W, H, clarity, threshold, picture, PANEL_PICTURE_LEN(W, H), palette, PANEL_PALETTE_LEN,
                                replaced, PANEL_REPLACED_LEN(W, H), output, PANEL_OUTPUT_LEN(W, H), singles,
                                PANEL_SINGLES_LEN(W, H), bytes, PANEL_BYTES_LEN(W, H)) == PANEL_NONE,
            "scale_palette was refused");
}

static void call_scale9x_palette(void)
{
    require(panel_scale9x_palette(W, H, clarity, threshold, picture, PANEL_PICTURE_LEN(W, H), palette,
                                  PANEL_PALETTE_LEN, replaced, PANEL_REPLACED_LEN(W, H), output9,
                                  PANEL_OUTPUT9_LEN(W, H), middle, PANEL_MIDDLE9_LEN(W, H), singles,
                                  PANEL_SINGLES9_LEN(W, H), bytes, PANEL_BYTES9_LEN(W, H)) == PANEL_NONE,
            "scale9x_palette was refused");
}

static void call_read_page(void)
{
    require(panel_read_page(file, file_len, page, FILE_BYTES / 4, &page_w, &page_h) == PANEL_NONE, "no page");
}

static void call_root(void)
{
    float root;

    require(panel_root(2.0f, &root) == PANEL_NONE, "root was refused");
}

static void call_distance(void) { require(panel_distance(0x00123456u, 0x00fedcbau) > 0.0f, "no distance"); }

static void call_nearness(void) { require(panel_nearness(0x00123456u, 0x00fedcbau) > 0, "no nearness"); }

static void call_version(void) { require(panel_version() == PANEL_VERSION, "another version"); }

static void call_nothing(void) {}

/* More than any call may take: if this is not seen, nothing is measured. */
static void call_too_deep(void)
{
    volatile uint8_t deep[PANEL_STACK_BYTES + 64];

    for (size_t i = 0; i < sizeof deep; i++)
        deep[i] = 0;
}

/* In an order in which each finds what it needs: the session is open, and what is shown was drawn. The nine-times one
   is opened where the other is done. Calls of no session need none. */
static const struct {
    const char *name;
    void (*call)(void);
    const struct session *session;
} calls[] = {
    {"read_page", call_read_page, NULL},
    {"open", call_open, &three},
    {"refresh of some rows", call_refresh_some, &three},
    {"refresh of everything", call_refresh_all, &three},
    {"paint", call_paint, &three},
    {"paint_list", call_paint_list, &three},
    {"refresh of the changes", call_refresh_all, &three},
    {"show", call_show, &three},
    {"lock", call_lock, &three},
    {"open, nine times", call_open, &nine},
    {"refresh of some rows, nine times", call_refresh_some, &nine},
    {"refresh of everything, nine times", call_refresh_all, &nine},
    {"paint, nine times", call_paint, &nine},
    {"paint_list, nine times", call_paint_list, &nine},
    {"refresh of the changes, nine times", call_refresh_all, &nine},
    {"show, nine times", call_show, &nine},
    {"lock, nine times", call_lock, &nine},
    {"scale", call_scale, NULL},
    {"scale9x", call_scale9x, NULL},
    {"scale_palette", call_scale_palette, NULL},
    {"scale9x_palette", call_scale9x_palette, NULL},
    {"root", call_root, NULL},
    {"distance", call_distance, NULL},
    {"nearness", call_nearness, NULL},
    {"version", call_version, NULL},
};

enum { CALLS = sizeof calls / sizeof calls[0] };

struct measured {
    void (*volatile call)(void);
    size_t used;
};

/* The count is made before the thread ends, so that its end is not counted. */
static void *run(void *at)
{
    struct measured *m = at;
    size_t untouched = 0;

    m->call();
    while (untouched < STACK && stack[untouched] == FILLED)
        untouched++;
    m->used = STACK - untouched;
    return NULL;
}

static size_t used_by(void (*call)(void))
{
    struct measured m = {call, 0};
    pthread_attr_t attributes;
    pthread_t thread;

    memset(stack, FILLED, STACK);
    require(pthread_attr_init(&attributes) == 0 && pthread_attr_setstack(&attributes, stack, STACK) == 0
                && pthread_create(&thread, &attributes, run, &m) == 0 && pthread_join(thread, NULL) == 0, "no thread");
    pthread_attr_destroy(&attributes);
    return m.used;
}

static size_t taken_by(void (*call)(void))
{
    size_t nothing = used_by(call_nothing), used = used_by(call);

    return used > nothing ? used - nothing : 0;
}

static uint32_t word_at(int kind, size_t x, size_t y)
{
    static uint32_t noise = 1;

    noise = noise * 1664525u + 1013904223u;
    switch (kind) {
    case 0: return page[y % page_h * page_w + x % page_w];
    case 1: return noise >> 8;
    default: return 0x00808080u;
    }
}

static void read_file(const char *path)
{
    FILE *opened = fopen(path, "rb");

    require(opened != NULL, "the page's file cannot be opened");
    file_len = fread(file, 1, sizeof file, opened);
    fclose(opened);
    call_read_page();
    require(page_w != 0 && page_h != 0, "the page is empty");
}

static void measure_calls(size_t most[CALLS])
{
    for (size_t i = 0; i < CALLS; i++) {
        size_t taken;

        session = calls[i].session;
        taken = taken_by(calls[i].call);
        most[i] = taken > most[i] ? taken : most[i];
    }
}

/* The most that each call takes, on any of the pictures at any clarity. */
static void measure(size_t most[CALLS])
{
    for (int kind = 0; kind < 3; kind++)
        for (clarity = PANEL_STANDARD; clarity <= PANEL_GATED; clarity++) {
            for (size_t i = 0; i < PANEL_PICTURE_LEN(W, H); i++)
                picture[i] = word_at(kind, i % W, i / W);
            measure_calls(most);
        }
}

int main(int argc, char **argv)
{
    static size_t most[CALLS];
    void *lent = NULL;
    int past = 0, figures = argc == 3 && strcmp(argv[2], "--figures") == 0;

    require(argc == 2 || figures, "usage: stack PAGE [--figures]");
    require(posix_memalign(&lent, 4096, STACK) == 0, "no memory");
    stack = lent;
    read_file(argv[1]);
    for (size_t i = 0; i < PANEL_PALETTE_LEN; i++)
        palette[i] = word_at(1, i, 0);
    require(taken_by(call_too_deep) > PANEL_STACK_BYTES, "a call that takes more was not seen");
    measure(most);
    for (size_t i = 0; i < CALLS; i++) {
        if (figures)
            printf("%s: %zu bytes\n", calls[i].name, most[i]);
        if (most[i] > PANEL_STACK_BYTES)
            fprintf(stderr, "stack: %s takes %zu bytes, more than %u\n", calls[i].name, most[i], PANEL_STACK_BYTES);
        past |= most[i] > PANEL_STACK_BYTES;
    }
    require(!past, "PANEL_STACK_BYTES of include/panel.h is too small");
    printf("stack: within %u bytes\n", PANEL_STACK_BYTES);
    return 0;
}
