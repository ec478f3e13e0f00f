/* A bench program in C: opens a box, steps it, runs it, stops it anywhere and carries it on, interrupts it, hands in damaged records, lists and
 * tables, and checks code; it compares every answer and every byte with what docs/RECORD.md and include/laqemdit.h say.
 * Use: bench. It needs nothing but the C library and the three archives, and prints the same lines every time.
 * The last line is 'bench: all N comparisons hold'; at the first difference it says what differs, and ends with status 1.
 */
#include <stdarg.h>
#include <stdio.h>
#include <stdlib.h>
#include <string.h>

#include "laqemdit.h"

enum { MAIN = 256, LOCAL = 64, ROOM = 8192, GUARD = 64, LARGE = 65540 };

struct settings {
    uint32_t words, lo, hi, on, blocks, bytes;
};

/* What is carried about: a record and the memories. */
struct box {
    uint8_t record[ROOM];
    size_t length;
    uint8_t main[MAIN];
    uint8_t local[LOCAL];
};

/* Bundles, cycles, spilled, filled, misses, fetched. */
struct counts {
    uint64_t number[6];
};

/* Three blocks, each behind its size. The block at 68 calls that at 4 twice, which spills two of its words, and that at 52, which spills
 * one more; four cache words. Products, loads and transfers wait here together. It ends at 160. */
static const uint32_t program[] = {
    0x0000002C,             /*   0  size of the block at 4 */
    0x03000003,             /*   4  sres 3 */
    0x02C00080,             /*   8  sws r0 0 r1 */
    0x020012A0,             /*  12  mul r1 r5 */
    0x020052A1,             /*  16  mulu r5 r5: two products are under way */
    0x028C0081,             /*  20  lwl r6 r0 1 */
    0x020E7300,             /*  24  add r7 r7 r6: the old r6 */
    0x06400000,             /*  28  ret */
    0x02500032,             /*  32  mfs r8 sl */
    0x82129400, 0x021AD302, /*  36  add r9 r9 r8 ; xor r13 r13 r6 */
    0x03200003,             /*  44  sfree 3 */
    0x0000000C,             /*  48  size of the block at 52 */
    0x03300001,             /*  52  sspill 1 */
    0x03100003,             /*  56  sens 3 */
    0x06000000,             /*  60  retnd */
    0x0000005C,             /*  64  size of the block at 68 */
    0x03000003,             /*  68  sres 3 */
    0x00020007,             /*  72  addi r1 r0 7 */
    0x87CA0000, 0x12345678, /*  76  addl r5 r0 12345678 */
    0x02C60282,             /*  84  swm r0 2 r5 */
    0x00040002,             /*  88  addi r2 r0 2 */
    0x02C00080,             /*  92  sws r0 0 r1 */
    0x04400001,             /*  96  call 1 */
    0x02C00102,             /* 100  sws r0 2 r2 */
    0x020050A1,             /* 104  mulu r5 r1 */
    0x00442001,             /* 108  subi r2 r2 1 */
    0x03100003,             /* 112  sens 3 */
    0x02860002,             /* 116  lws r3 r0 2 */
    0x0400000D,             /* 120  callnd 13 */
    0x82022031, 0x02084180, /* 124  cmpneq p1 r2 r0 ; add r4 r4 r3 */
    0x0CFFFFF7,             /* 132  p1 br -9: to 96 */
    0x02960384,             /* 136  lhm r11 r0 4 */
    0x0218C580,             /* 140  add r12 r12 r11: the old r11 */
    0x02C20200,             /* 144  swl r0 0 r4 */
    0x025C0033,             /* 148  mfs r14 sh */
    0x03200003,             /* 152  sfree 3 */
    0x02C60603,             /* 156  swm r0 3 r12 */
};

/* Four cache words; two blocks and 104 bytes: the block at 68 (92 bytes) and that at 52 (12) just fit, that at 4 (44) puts the older one out. */
static const struct settings settings = {4, 128, 256, 1, 2, 104};

/* The counts of the whole run, worked out by hand: 6 + 2 * 24 + 4 bundles, of which 4 take 4 cycles; twice 2 + 1 words spilled and
 * filled; twice the blocks of 11, 23 and 3 words fetched, while the second return to 68 of each turn finds its block. */
static const struct counts whole = {{58, 70, 6, 6, 6, 74}};

static uint8_t code[LARGE];
static size_t code_length;

/* The list and the table of the calls: none and no handlers, but where interrupts are tried. */
static uint8_t list[256], table[256];
static size_t list_length, table_length = 128;
static unsigned long compared;

static void differs(const char *format, ...)
{
    va_list list;
    va_start(list, format);
    printf("bench: DIFFERENCE: ");
    vprintf(format, list);
    printf("\n");
    va_end(list);
    exit(1);
}

/* A comparison, with what to print where it does not hold. */
#define HOLDS(test, ...) \
    do { \
        compared++; \
        if (!(test)) \
            differs(__VA_ARGS__); \
    } while (0)

static void put_word(uint8_t *at, uint32_t w)
{
    at[0] = (uint8_t)(w >> 24);
    at[1] = (uint8_t)(w >> 16);
    at[2] = (uint8_t)(w >> 8);
    at[3] = (uint8_t)w;
}

static uint32_t word(const uint8_t *at)
{
    return (uint32_t)at[0] << 24 | (uint32_t)at[1] << 16 | (uint32_t)at[2] << 8 | at[3];
}

static void load_code(const uint32_t *words, size_t n)
{
    for (size_t i = 0; i < n; i++)
        put_word(code + 4 * i, words[i]);
    code_length = 4 * n;
}

#define LOAD(words) load_code(words, sizeof words / sizeof words[0])

/* ------------------------------------------------------------ records */

/* The sections of a record. */
enum { SECTIONS = 11 };

/* Where section k of a record begins, its count included; k = 11 is the record's end. Only for records that are whole. */
static size_t section(const uint8_t *record, int k)
{
    size_t at = 0;
    while (k-- > 0)
        at += 4 + 4 * (size_t)word(record + at);
    return at;
}

/* The length of the record at the beginning of a buffer, or 0 where there are not so many sections in it. */
static size_t record_length(const uint8_t *buffer, size_t room)
{
    size_t at = 0;
    for (int k = 0; k < SECTIONS; k++) {
        if (room - at < 4 || (room - at - 4) / 4 < word(buffer + at))
            return 0;
        at += 4 + 4 * (size_t)word(buffer + at);
    }
    return at;
}

static struct counts counts_of(const uint8_t *record)
{
    struct counts c;
    const uint8_t *at = record + section(record, 8) + 4;
    for (int i = 0; i < 6; i++)
        c.number[i] = (uint64_t)word(at + 8 * i) << 32 | word(at + 8 * i + 4);
    return c;
}

static void clear_counts(uint8_t *record)
{
    memset(record + section(record, 8) + 4, 0, 48);
}

/* Whether two records have the same bytes but for their counts. */
static int same_state(const struct box *a, const struct box *b)
{
    size_t at = section(a->record, 8) + 4;
    return a->length == b->length && memcmp(a->record, b->record, at) == 0
        && memcmp(a->record + at + 48, b->record + at + 48, a->length - at - 48) == 0;
}

static int same_memories(const struct box *a, const struct box *b)
{
    return memcmp(a->main, b->main, MAIN) == 0 && memcmp(a->local, b->local, LOCAL) == 0;
}

static int same_box(const struct box *a, const struct box *b)
{
    return a->length == b->length && memcmp(a->record, b->record, a->length) == 0 && same_memories(a, b);
}

/* A fresh record in which the library has no part: place and value of each word that is not 0, as docs/RECORD.md has them. What is opened is
 * compared with it. */
static size_t by_hand(uint8_t *record, uint32_t entry, size_t length, const struct settings *s)
{
    const uint32_t w = s->words, hi = s->hi;
    const uint32_t words[13][2] = {{0, 2}, {1, entry}, {2, entry}, {3, 32}, {36, 1}, {37, 1}, {38, 8}, {41, hi}, {42, hi},
        {44, (uint32_t)length}, {47, w}, {51 + w, 12}, {65 + w, 3}};
    memset(record, 0, 4 * (69 + (size_t)w));
    for (int i = 0; i < 13; i++)
        put_word(record + 4 * words[i][0], words[i][1]);
    return 4 * (69 + (size_t)w);
}

/* Whether a record is accepted: a reading of the documents of its own. */
static int fits(const uint8_t *r, size_t length, const struct settings *s)
{
    static const uint32_t fixed[SECTIONS] = {2, 32, 1, 8, 0, 0, 0, 0, 12, 0, 3};
    uint64_t held_bytes = 0;
    if (record_length(r, length) != length || length == 0)
        return 0;
    for (int k = 0; k < SECTIONS; k++) {
        const uint8_t *at = r + section(r, k), *in = at + 4;
        uint32_t n = word(at);
        if (fixed[k] != 0 && n != fixed[k])
            return 0;
        if (k == 1 && word(in) != 0)
            return 0;
        if (k == 2 && (word(in) > 255 || word(in) % 2 == 0))
            return 0;
        if (k == 4 && n != s->words)
            return 0;
        if (k == 5 && n != 0) {
            if (n != 3 && n != 4)
                return 0;
            if (n == 3 ? word(in) > 1 : word(in) != 2 && word(in) != 3)
                return 0;
            if (word(in + 4) < 1 || word(in + 4) > 3)
                return 0;
        }
        if (k == 6 && n != 0 && (n != 2 || word(in) > 31))
            return 0;
        if (k == 7 && n != 0) {
            if (n != 3 && n != 6)
                return 0;
            if (word(in) < 1 || word(in) > 2)
                return 0;
            if (n == 6 && (word(in + 12) <= word(in) || word(in + 12) > 2))
                return 0;
        }
        if (k == 9) {
            if (n > (s->on ? s->blocks : 0))
                return 0;
            for (uint32_t i = 0; i < n; i++) {
                uint32_t base = word(in + 4 * i), size;
                if (base < 4 || base > code_length || base % 4 != 0)
                    return 0;
                size = word(code + base - 4);
                if (size == 0 || size % 4 != 0 || size > code_length - base)
                    return 0;
                for (uint32_t j = 0; j < i; j++)
                    if (word(in + 4 * j) == base)
                        return 0;
                held_bytes += size;
            }
            if (n > 0 && held_bytes > s->bytes)
                return 0;
        }
        if (k == 10 && word(in) > 1)
            return 0;
    }
    return 1;
}

/* ------------------------------------------------------------ calls */

enum { STEP = -1 };

/* The buffers of a call stand in here with guards between them, which nothing may touch. */
static uint8_t arena[4 * LARGE + 2 * ROOM + 8 * GUARD + sizeof list + sizeof table];

static uint8_t *lend(size_t *at, const uint8_t *from, size_t n)
{
    uint8_t *to = arena + *at + GUARD;
    if (from != NULL)
        memcpy(to, from, n);
    else
        memset(to, 0xA5, n);
    *at += GUARD + n;
    return to;
}

static int all(const uint8_t *at, uint8_t value, size_t n)
{
    while (n > 0)
        if (at[--n] != value)
            return 0;
    return 1;
}

/* A call over copies of the box's record and memories, with an output of `room` bytes that all hold A5; `after` gets the memories and, where
 * one was written, the record. What holds of every call is compared here. */
static uint32_t call(int64_t budget, const struct box *box, size_t room, const struct settings *s, struct box *after, const char *what)
{
    size_t at = 0, longest = laqemdit_longest(s->words);
    uint8_t *record, *code_lent, *main_lent, *local_lent, *out, *list_lent, *table_lent;
    uint32_t answer;
    memset(arena, 0x5A, box->length + code_length + MAIN + LOCAL + room + list_length + table_length + 8 * GUARD);
    record = lend(&at, box->record, box->length);
    code_lent = lend(&at, code, code_length);
    main_lent = lend(&at, box->main, MAIN);
    local_lent = lend(&at, box->local, LOCAL);
    out = lend(&at, NULL, room);
    list_lent = lend(&at, list, list_length);
    table_lent = lend(&at, table, table_length);
    if (budget == STEP)
        answer = laqemdit_step(record, box->length, code_lent, code_length, main_lent, MAIN, local_lent, LOCAL, out, room, list_lent,
            list_length, table_lent, table_length, s->words, s->lo, s->hi, s->on, s->blocks, s->bytes);
    else
        answer = laqemdit_run(record, box->length, code_lent, code_length, main_lent, MAIN, local_lent, LOCAL, out, room, list_lent,
            list_length, table_lent, table_length, (uint32_t)budget, s->words, s->lo, s->hi, s->on, s->blocks, s->bytes);
    HOLDS(all(record - GUARD, 0x5A, GUARD) && all(code_lent - GUARD, 0x5A, GUARD) && all(main_lent - GUARD, 0x5A, GUARD)
            && all(local_lent - GUARD, 0x5A, GUARD) && all(out - GUARD, 0x5A, GUARD) && all(out + room, 0x5A, GUARD)
            && all(table_lent - GUARD, 0x5A, GUARD) && all(table_lent + table_length, 0x5A, GUARD),
        "%s: bytes outside the buffers were touched", what);
    HOLDS(memcmp(record, box->record, box->length) == 0 && memcmp(code_lent, code, code_length) == 0
            && memcmp(list_lent, list, list_length) == 0 && memcmp(table_lent, table, table_length) == 0,
        "%s: record, code, list or table was written to", what);
    memcpy(after->main, main_lent, MAIN);
    memcpy(after->local, local_lent, LOCAL);
    if (answer == 1 || answer == 14 || answer == 15) {
        HOLDS(all(out, 0xA5, room), "%s: answer %u, and the output was written to", what, (unsigned)answer);
        HOLDS(same_memories(after, box), "%s: answer %u, and a memory was written to", what, (unsigned)answer);
        after->length = 0;
        return answer;
    }
    after->length = record_length(out, room);
    HOLDS(after->length != 0 && after->length <= longest, "%s: answer %u, and the output has no record", what, (unsigned)answer);
    HOLDS(all(out + after->length, 0xA5, room - after->length), "%s: the output does not keep its rest", what);
    memcpy(after->record, out, after->length);
    HOLDS(fits(after->record, after->length, s), "%s: the record written is not one of a well-formed box", what);
    return answer;
}

/* The same with an output that is just long enough. */
static uint32_t go(int64_t budget, const struct box *box, const struct settings *s, struct box *after, const char *what)
{
    return call(budget, box, laqemdit_longest(s->words), s, after, what);
}

/* How long the buffers of an opening are. */
struct lengths {
    size_t code, main, local, out;
};

/* An opening that has to answer `due`; `b` gets the record, where one is written. The memories hold what the code holds, since none of it may
 * matter. What holds of every opening is compared here. */
static void open_box(uint32_t due, const struct lengths *n, uint32_t entry, const struct settings *s, struct box *b)
{
    size_t at = 0;
    uint8_t *code_lent, *main_lent, *local_lent, *out;
    uint32_t answer;
    memset(arena, 0x5A, n->code + n->main + n->local + n->out + 5 * GUARD);
    code_lent = lend(&at, code, n->code);
    main_lent = lend(&at, code, n->main);
    local_lent = lend(&at, code, n->local);
    out = lend(&at, NULL, n->out);
    answer = laqemdit_open(code_lent, n->code, main_lent, n->main, local_lent, n->local, out, n->out, entry,
        s->words, s->lo, s->hi, s->on, s->blocks, s->bytes);
    HOLDS(answer == due, "an opening at %u of %lu bytes, with %u cache words, into %lu bytes answers %u in place of %u", (unsigned)entry,
        (unsigned long)n->code, (unsigned)s->words, (unsigned long)n->out, (unsigned)answer, (unsigned)due);
    HOLDS(all(code_lent - GUARD, 0x5A, GUARD) && all(main_lent - GUARD, 0x5A, GUARD) && all(local_lent - GUARD, 0x5A, GUARD)
            && all(out - GUARD, 0x5A, GUARD) && all(out + n->out, 0x5A, GUARD),
        "an opening that answers %u touches bytes outside the buffers", (unsigned)answer);
    HOLDS(memcmp(code_lent, code, n->code) == 0 && memcmp(main_lent, code, n->main) == 0 && memcmp(local_lent, code, n->local) == 0,
        "an opening that answers %u writes to code or a memory", (unsigned)answer);
    b->length = due == LAQEMDIT_OPENED ? by_hand(b->record, entry, n->code, s) : 0;
    HOLDS(memcmp(out, b->record, b->length) == 0, "the record opened at %u of %lu bytes, with %u cache words, is not the one built by hand",
        (unsigned)entry, (unsigned long)n->code, (unsigned)s->words);
    HOLDS(all(out + b->length, 0xA5, n->out - b->length), "an opening that answers %u does not leave the output's rest as found",
        (unsigned)answer);
    memcpy(b->record, out, b->length);
}

/* The box opened at an entry, with the memories that the tries begin with. */
static void opened(struct box *b, uint32_t entry, const struct settings *s)
{
    const struct lengths n = {code_length, MAIN, LOCAL, laqemdit_longest(s->words)};
    memset(b, 0, sizeof *b);
    open_box(LAQEMDIT_OPENED, &n, entry, s, b);
    for (int i = 0; i < 128; i++)
        b->main[i] = (uint8_t)(i * 7);
    put_word(b->local + 4, 0x10);
}

static int same_counts(struct counts a, struct counts b)
{
    return memcmp(a.number, b.number, sizeof a.number) == 0;
}

static struct counts sum(struct counts a, struct counts b)
{
    for (int i = 0; i < 6; i++)
        a.number[i] += b.number[i];
    return a;
}

/* The word k of section n. */
static uint32_t part(const struct box *b, int n, uint32_t k)
{
    return word(b->record + section(b->record, n) + 4 + 4 * k);
}

/* The count of section n. */
static uint32_t parts(const struct box *b, int n)
{
    return word(b->record + section(b->record, n));
}

/* ------------------------------------------------------------ what is tried */

static void try_longest(void)
{
    for (uint32_t w = 0; w < 2100; w++) {
        int size = w == 4 || w == 8 || w == 16 || w == 32 || w == 64 || w == 128 || w == 256 || w == 512;
        HOLDS(laqemdit_longest(w) == (size ? 4 * (97 + w) : 0), "longest %u gives %u", (unsigned)w, (unsigned)laqemdit_longest(w));
    }
    HOLDS(laqemdit_longest(0xFFFFFFFF) == 0 && laqemdit_longest(0x80000000) == 0, "longest of a great number");
    printf("longest: 2102 sizes, %u bytes for 4 words and %u for 512\n", (unsigned)laqemdit_longest(4), (unsigned)laqemdit_longest(512));
}

/* A box from its opening on, in code whose words are no bundles: a run of budget 0 and a refused step give it back. */
static void try_opened(uint32_t entry, const struct settings *s)
{
    const struct lengths n = {code_length, MAIN, LOCAL, ROOM};
    struct box b, after;
    open_box(LAQEMDIT_OPENED, &n, entry, s, &b);
    opened(&b, entry, s);
    HOLDS(go(0, &b, s, &after, "budget 0") == LAQEMDIT_SPENT && same_box(&after, &b), "a run of budget 0 does not give back what was opened");
    HOLDS(go(STEP, &b, s, &after, "no bundle") == 3 && same_box(&after, &b), "a step at no bundle does not give back what was opened");
}

/* Openings that are taken: sizes of the stack cache, stack areas, method caches, lengths of code, entries. */
static void try_open(void)
{
    static const uint32_t areas[5][2] = {{0, 0}, {0, 256}, {128, 256}, {64, 128}, {256, 256}};
    static const uint32_t methods[4][3] = {{0, 0, 0}, {0, 17, 63}, {1, 1, 64}, {0x80000000, 16, 16384}};
    static const size_t lengths[4] = {4, 8, 160, 65536};
    unsigned boxes = 0;
    for (size_t i = 0; i < LARGE; i += 4)
        put_word(code + i, 0x05C00000);
    for (uint32_t k = 0; k < 8 * 5 * 4 * 4; k++) {
        const uint32_t *area = areas[k / 8 % 5], *method = methods[k / 40 % 4];
        const struct settings s = {4u << k % 8, area[0], area[1], method[0], method[1], method[2]};
        code_length = lengths[k / 160];
        try_opened(0, &s);
        try_opened((uint32_t)(code_length / 8 * 4), &s);
        try_opened((uint32_t)code_length - 4, &s);
        boxes += 3;
    }
    printf("open: %u boxes as built by hand, each given back by a run of budget 0\n", boxes);
}

/* Openings that are refused for their entry or their output, and the last ones that are not: 14 comes before 2. */
static void try_open_refused(void)
{
    static const uint32_t far[] = {65536, 65540, 0x7FFFFFFC, 0x80000000, 0xFFFFFFFC, 0xFFFFFFFD, 0xFFFFFFFF};
    struct settings s = settings;
    struct lengths n = {sizeof program, MAIN, LOCAL, ROOM};
    struct box b;
    unsigned entries = 0, outputs = 0;
    LOAD(program);
    for (uint32_t entry = 0; entry < 1000; entry++, entries++)
        open_box(entry % 4 == 0 && entry < 160 ? LAQEMDIT_OPENED : 2, &n, entry, &settings, &b);
    for (size_t i = 0; i < sizeof far / sizeof far[0]; i++, entries++)
        open_box(2, &n, far[i], &settings, &b);
    for (s.words = 4; s.words <= 512; s.words *= 2) {
        size_t longest = laqemdit_longest(s.words);
        for (n.out = 0; n.out < longest + 3; n.out++, outputs++) {
            open_box(n.out < longest ? 14 : LAQEMDIT_OPENED, &n, 68, &s, &b);
            open_box(n.out < longest ? 14 : 2, &n, 3, &s, &b);
            open_box(n.out < longest ? 14 : 2, &n, 160, &s, &b);
        }
    }
    printf("openings: %u entries, %u outputs\n", entries, outputs);
}

/* The whole run, and every state on its way: the records after m bundles for all m. */
static struct box stops[64];
static struct counts stop_counts[64];

static void try_run(void)
{
    static const uint32_t registers[32] = {0, 7, 0, 1, 3, 0x12345678, 0x10, 0x10, 0x1DF4D840, 0x3BE9B080, 0, 0x1234, 0x1234, 0, 0x014B66DC};
    struct box start, end, same;
    struct counts c;
    LOAD(program);
    opened(&start, 68, &settings);
    HOLDS(fits(start.record, start.length, &settings), "the record that was opened is none of a well-formed box");
    HOLDS(start.length == 4 * 73, "a fresh record has %lu bytes", (unsigned long)start.length);
    HOLDS(go(0, &start, &settings, &same, "budget 0") == LAQEMDIT_SPENT, "budget 0 is not spent");
    HOLDS(same_box(&same, &start), "a run of budget 0 does not give back what was opened");
    HOLDS(go(1000, &start, &settings, &end, "the whole run") == LAQEMDIT_ENDED, "the whole run does not end");
    c = counts_of(end.record);
    HOLDS(same_counts(c, whole), "the whole run's counts");
    HOLDS(go(0xFFFFFFFFL, &start, &settings, &same, "the greatest budget") == LAQEMDIT_ENDED, "the greatest budget does not end");
    HOLDS(same_box(&same, &end), "the greatest budget gives another end");
    HOLDS(part(&end, 0, 0) == 160 && part(&end, 0, 1) == 68, "fetch address and base at the end");
    for (uint32_t i = 0; i < 32; i++)
        HOLDS(part(&end, 1, i) == registers[i], "r%u at the end is %08X", (unsigned)i, (unsigned)part(&end, 1, i));
    HOLDS(part(&end, 2, 0) == 1, "predicates at the end");
    HOLDS(part(&end, 3, 0) == 0x1DF4D840 && part(&end, 3, 1) == 0x014B66DC && part(&end, 3, 2) == 256 && part(&end, 3, 3) == 256,
        "sl, sh, ss, st at the end");
    HOLDS(parts(&end, 5) == 0 && parts(&end, 6) == 0 && parts(&end, 7) == 0, "something waits at the end");
    HOLDS(parts(&end, 9) == 2 && part(&end, 9, 0) == 68 && part(&end, 9, 1) == 52, "blocks held at the end");
    HOLDS(word(end.main + 8) == 0x12345678 && word(end.main + 12) == 0x1234 && word(end.local) == 3, "memories at the end");
    printf("run: ended, bundles %lu cycles %lu spilled %lu filled %lu misses %lu fetched %lu\n", (unsigned long)c.number[0],
        (unsigned long)c.number[1], (unsigned long)c.number[2], (unsigned long)c.number[3], (unsigned long)c.number[4],
        (unsigned long)c.number[5]);
    HOLDS(go(5, &end, &settings, &same, "a run of an ended box") == LAQEMDIT_ENDED, "an ended box does not stay ended");
    clear_counts(end.record);
    HOLDS(same_box(&same, &end), "a run of an ended box changes it");
    HOLDS(go(STEP, &end, &settings, &same, "a step of an ended box") == LAQEMDIT_ENDED, "a step of an ended box");
    HOLDS(same_box(&same, &end), "a step of an ended box changes it");
}

static void try_steps(void)
{
    struct box now, next;
    struct counts total = {{0}};
    unsigned waiting = 0, loading = 0, single = 0, both = 0;
    opened(&now, 68, &settings);
    stops[0] = now;
    for (uint32_t m = 1; m <= 58; m++) {
        struct box ran;
        uint32_t a = go(STEP, &now, &settings, &next, "a step");
        HOLDS(a == LAQEMDIT_DONE, "step %u answers %u", (unsigned)m, (unsigned)a);
        total = sum(total, counts_of(next.record));
        HOLDS(counts_of(next.record).number[0] == 1, "step %u does not count one bundle", (unsigned)m);
        a = go((long)m, &stops[0], &settings, &ran, "a run");
        HOLDS(a == (m < 58 ? LAQEMDIT_SPENT : LAQEMDIT_ENDED), "a run of %u bundles answers %u", (unsigned)m, (unsigned)a);
        HOLDS(same_state(&next, &ran) && same_memories(&next, &ran), "%u steps and a run of %u bundles differ", (unsigned)m, (unsigned)m);
        HOLDS(same_counts(total, counts_of(ran.record)), "the counts of %u steps and of a run differ", (unsigned)m);
        stops[m] = ran;
        stop_counts[m] = total;
        waiting += parts(&ran, 5) != 0;
        loading += parts(&ran, 6) != 0;
        single += parts(&ran, 7) == 3;
        both += parts(&ran, 7) == 6;
        now = next;
    }
    HOLDS(same_counts(total, whole), "the counts of all steps");
    HOLDS(waiting > 0 && loading > 0 && single > 0 && both > 0, "the program leaves nothing waiting");
    printf("steps: 58, each as a run of so many bundles; a transfer waits after %u of them, a load after %u, one product after %u, two after %u\n",
        waiting, loading, single, both);
}

/* From every stop with every rest: the parts of m and n bundles are the run of m + n. */
static void try_going_on(void)
{
    unsigned pairs = 0;
    for (uint32_t m = 0; m <= 58; m++) {
        struct box same;
        uint32_t a = go(0, &stops[m], &settings, &same, "budget 0");
        HOLDS(a == (m < 58 ? LAQEMDIT_SPENT : LAQEMDIT_ENDED), "budget 0 after %u bundles answers %u", (unsigned)m, (unsigned)a);
        HOLDS(same_state(&same, &stops[m]) && same_memories(&same, &stops[m]), "budget 0 after %u bundles changes the box", (unsigned)m);
        HOLDS(all(same.record + section(same.record, 8) + 4, 0, 48), "budget 0 counts something");
        for (uint32_t n = 0; m + n <= 60; n++) {
            struct box end;
            uint32_t k = m + n < 58 ? m + n : 58;
            a = go((long)n, &stops[m], &settings, &end, "a run that goes on");
            HOLDS(a == (m + n < 58 ? LAQEMDIT_SPENT : LAQEMDIT_ENDED), "%u bundles after %u answer %u", (unsigned)n, (unsigned)m, (unsigned)a);
            HOLDS(same_state(&end, &stops[k]) && same_memories(&end, &stops[k]), "%u bundles after %u give another box than %u",
                (unsigned)n, (unsigned)m, (unsigned)k);
            HOLDS(same_counts(sum(stop_counts[m], counts_of(end.record)), stop_counts[k]), "the counts of %u and %u bundles do not add up",
                (unsigned)m, (unsigned)n);
            pairs++;
        }
    }
    printf("stopped and carried on: %u ways of two parts\n", pairs);
}

/* A record that may be damaged: refused with 14 exactly where `fits` says so; else the same bytes come back, counts 0. */
static int judged(const struct box *b, const struct settings *s, const char *what)
{
    struct box after;
    int good = fits(b->record, b->length, s);
    uint32_t a = go(0, b, s, &after, what);
    if (!good) {
        HOLDS(a == 14, "%s answers %u in place of 14", what, (unsigned)a);
        return 0;
    }
    HOLDS(a == LAQEMDIT_SPENT || a == LAQEMDIT_ENDED, "%s answers %u, though it is a record", what, (unsigned)a);
    HOLDS((a == LAQEMDIT_ENDED) == (part(b, 0, 0) == code_length && parts(b, 5) == 0), "%s: ended, or not", what);
    HOLDS(same_state(&after, b) && same_memories(&after, b), "%s: what was read is written otherwise", what);
    HOLDS(all(after.record + section(after.record, 8) + 4, 0, 48), "%s: counts are not 0", what);
    return 1;
}

static void try_damage(void)
{
    unsigned long refused = 0, taken = 0;
    char what[100];
    for (uint32_t m = 0; m <= 58; m++) {
        struct box b = stops[m];
        for (size_t i = 0; i < b.length; i++) {
            uint8_t old = b.record[i];
            uint8_t changes[5];
            changes[0] = old ^ 1;
            changes[1] = old ^ 0x80;
            changes[2] = 0xFF;
            changes[3] = 0;
            changes[4] = (uint8_t)(old + 1);
            for (int k = 0; k < 5; k++) {
                sprintf(what, "the record after %u bundles with %02X for %02X at %lu", (unsigned)m, changes[k], old, (unsigned long)i);
                b.record[i] = changes[k];
                if (judged(&b, &settings, what))
                    taken++;
                else
                    refused++;
            }
            b.record[i] = old;
        }
    }
    printf("a byte changed: %lu records refused with 14, %lu taken as another state's\n", refused, taken);
}

static void try_lengths(void)
{
    unsigned long refused = 0;
    char what[100];
    for (uint32_t m = 0; m <= 58; m++) {
        struct box b = stops[m];
        size_t length = b.length;
        for (b.length = 0; b.length < length + 9; b.length++) {
            if (b.length == length)
                continue;
            for (int fill = 0; fill < 2; fill++) {
                memset(b.record + length, fill ? 0xFF : 0, 16);
                sprintf(what, "the record after %u bundles in %lu bytes", (unsigned)m, (unsigned long)b.length);
                HOLDS(!judged(&b, &settings, what), "%s is taken", what);
                refused++;
            }
        }
        /* a section more, of no words */
        memset(b.record + length, 0, 4);
        b.length = length + 4;
        HOLDS(!judged(&b, &settings, "a twelfth section"), "a twelfth section is taken");
    }
    printf("cut short and lengthened: %lu records refused with 14\n", refused);
}

/* Two sections change places, with their counts. Some that are as long as each other and hold small numbers are a record again, of another
 * state: a waiting load and a fetch address with its base, where the fetch address is below 32. */
static void try_exchanged(void)
{
    unsigned long refused = 0, same = 0, taken = 0;
    char what[100];
    for (uint32_t m = 0; m <= 58; m++)
        for (int i = 0; i < SECTIONS; i++)
            for (int j = i + 1; j < SECTIONS; j++) {
                struct box b;
                size_t at = 0;
                b = stops[m];
                for (int k = 0; k < SECTIONS; k++) {
                    int from = k == i ? j : k == j ? i : k;
                    size_t start = section(stops[m].record, from), end = section(stops[m].record, from + 1);
                    memcpy(b.record + at, stops[m].record + start, end - start);
                    at += end - start;
                }
                sprintf(what, "the record after %u bundles with sections %d and %d exchanged", (unsigned)m, i + 1, j + 1);
                if (memcmp(b.record, stops[m].record, b.length) == 0)
                    same++;
                else if (judged(&b, &settings, what))
                    taken++;
                else
                    refused++;
            }
    printf("sections exchanged: %lu records refused with 14, %lu taken, %lu the same bytes\n", refused, taken, same);
}

static void try_rooms(void)
{
    struct box after;
    size_t longest = laqemdit_longest(settings.words), rooms = 0;
    for (uint32_t m = 0; m <= 58; m++) {
        for (size_t room = 0; room <= longest + 40; room++, rooms++) {
            uint32_t a = call(1, &stops[m], room, &settings, &after, "an output of some length");
            uint32_t due = room < longest ? 14 : m < 57 ? LAQEMDIT_SPENT : LAQEMDIT_ENDED;
            HOLDS(a == due, "an output of %lu bytes after %u bundles gives %u", (unsigned long)room, (unsigned)m, (unsigned)a);
            a = call(STEP, &stops[m], room, &settings, &after, "an output of some length");
            due = room < longest ? 14 : m < 58 ? LAQEMDIT_DONE : LAQEMDIT_ENDED;
            HOLDS(a == due, "a step into an output of %lu bytes gives %u", (unsigned long)room, (unsigned)a);
        }
    }
    printf("outputs: %lu lengths around %lu\n", (unsigned long)rooms, (unsigned long)longest);
}

/* Counts take any value, and the run's own start from 0. */
static void try_counts(void)
{
    struct box b, after;
    for (uint32_t m = 0; m < 58; m++) {
        b = stops[m];
        memset(b.record + section(b.record, 8) + 4, 0xFF, 48);
        HOLDS(go(1, &b, &settings, &after, "greatest counts") == (m < 57 ? LAQEMDIT_SPENT : LAQEMDIT_ENDED), "greatest counts are refused");
        HOLDS(same_state(&after, &stops[m + 1]) && counts_of(after.record).number[0] == 1, "greatest counts are carried on");
    }
    printf("counts of FFFFFFFF: 58 records\n");
}

/* The section in place of that of a record. */
static void replace(struct box *b, int n, const uint32_t *words, uint32_t count)
{
    size_t at = section(b->record, n), end = section(b->record, n + 1), space = 4 + 4 * (size_t)count;
    memmove(b->record + at + space, b->record + end, b->length - end);
    b->length = b->length + space - (end - at);
    put_word(b->record + at, count);
    for (uint32_t i = 0; i < count; i++)
        put_word(b->record + at + 4 + 4 * i, words[i]);
}

/* Sections of every length up to 40 words, of several fillings, in every place, and all small values of those that may be absent. */
static void try_sections(void)
{
    unsigned long refused = 0, taken = 0;
    uint32_t words[40], at[4];
    struct box b;
    char what[100];
    LOAD(program);
    for (int n = 0; n < SECTIONS; n++)
        for (uint32_t count = 0; count <= 40; count++)
            for (uint32_t fill = 0; fill < 6; fill++) {
                static const uint32_t fills[5] = {0, 1, 2, 52, 0xFFFFFFFF};
                for (uint32_t i = 0; i < 40; i++)
                    words[i] = fill < 5 ? fills[fill] : i + 1;
                b = stops[23];
                replace(&b, n, words, count);
                sprintf(what, "section %d of %u words, filling %u", n + 1, (unsigned)count, (unsigned)fill);
                judged(&b, &settings, what) ? taken++ : refused++;
            }
    for (uint32_t p = 0; p < 600; p++) {
        b = stops[14];
        replace(&b, 2, &p, 1);
        judged(&b, &settings, "predicates") ? taken++ : refused++;
    }
    for (at[0] = 0; at[0] < 5; at[0]++)
        for (at[1] = 0; at[1] < 6; at[1]++)
            for (uint32_t count = 2; count <= 4; count++) {
                at[2] = at[3] = 68;
                b = stops[14];
                replace(&b, 5, at, count);
                sprintf(what, "a transfer %u, wait %u, of %u words", (unsigned)at[0], (unsigned)at[1], (unsigned)count);
                judged(&b, &settings, what) ? taken++ : refused++;
            }
    for (at[0] = 0; at[0] < 70; at[0]++) {
        at[1] = 5;
        b = stops[14];
        replace(&b, 6, at, 2);
        judged(&b, &settings, "a load") ? taken++ : refused++;
    }
    memset(words, 0, sizeof words);
    for (words[0] = 0; words[0] < 5; words[0]++)
        for (words[3] = 0; words[3] < 5; words[3]++)
            for (uint32_t count = 3; count <= 9; count += 3) {
                words[6] = 3;
                b = stops[7];
                replace(&b, 7, words, count);
                sprintf(what, "products with waits %u and %u, %u words", (unsigned)words[0], (unsigned)words[3], (unsigned)count);
                judged(&b, &settings, what) ? taken++ : refused++;
            }
    for (uint32_t k = 0; k < 6 * 6 * 6; k++) {
        static const uint32_t bases[6] = {0, 4, 52, 68, 72, 160};
        struct settings s = settings;
        words[0] = bases[k % 6];
        words[1] = bases[k / 6 % 6];
        words[2] = bases[k / 36];
        for (uint32_t count = 1; count <= 3; count++)
            for (uint32_t capacity = 0; capacity < 5; capacity++) {
                s.on = capacity > 0;
                s.blocks = capacity < 3 ? 3 : capacity - 2;
                s.bytes = capacity == 1 ? 103 : 148;
                b = stops[0];
                replace(&b, 9, words, count);
                sprintf(what, "held %u %u %u, %u of them, capacity %u %u", (unsigned)words[0], (unsigned)words[1], (unsigned)words[2],
                    (unsigned)count, (unsigned)s.blocks, (unsigned)s.bytes);
                judged(&b, &s, what) ? taken++ : refused++;
            }
    }
    printf("sections: %lu refused with 14, %lu taken\n", refused, taken);
}

/* One bundle over a state whose words are all different: each word of the record is what its place says it is. */
static void try_places(void)
{
    static const uint32_t numbers[8] = {2, 3, 5, 6, 7, 8, 9, 10};
    struct settings s = {8, 128, 256, 0, 0, 0};
    struct box start, b, after;
    uint32_t words[40], w;
    unsigned tried = 0;
    w = 0x00400000;
    load_code(&w, 1);
    opened(&start, 0, &s);
    for (uint32_t i = 0; i < 32; i++)
        words[i] = i == 0 ? 0 : 0x01010101 * i;
    replace(&start, 1, words, 32);
    for (uint32_t i = 0; i < 8; i++)
        words[i] = 0xC0000000 + i;
    replace(&start, 4, words, 8);
    for (uint32_t i = 0; i < 8; i++)
        words[i] = 0x100 + i;
    words[2] = 256;
    words[3] = 224;
    replace(&start, 3, words, 8);
    for (uint32_t i = 0; i < 32; i++, tried++) { /* addi r9 ri 0 */
        w = 9 << 17 | i << 12;
        load_code(&w, 1);
        HOLDS(go(STEP, &start, &s, &after, "a register") == LAQEMDIT_DONE && part(&after, 1, 9) == 0x01010101 * i, "r%u", (unsigned)i);
    }
    for (uint32_t i = 0; i < 8; i++, tried++) { /* mfs r9 */
        w = 0x02520030 | numbers[i];
        load_code(&w, 1);
        HOLDS(go(STEP, &start, &s, &after, "a special register") == LAQEMDIT_DONE && part(&after, 1, 9) == part(&start, 3, i),
            "special register %u", (unsigned)numbers[i]);
    }
    for (uint32_t i = 0; i < 8; i++, tried++) { /* lws r9 r0 i: the word at 224 + 4 * i, in place 56 + i modulo 8 */
        w = 0x02920000 | i;
        load_code(&w, 1);
        HOLDS(go(STEP, &start, &s, &after, "a cache word") == LAQEMDIT_DONE && parts(&after, 6) == 2 && part(&after, 6, 0) == 9
                && part(&after, 6, 1) == 0xC0000000 + i,
            "cache place %u", (unsigned)i);
    }
    for (uint32_t i = 0; i < 8; i++, tried++) { /* pi addi r9 r0 1 */
        uint32_t preds = 1 | 1u << i;
        w = i << 27 | 0x00120001;
        load_code(&w, 1);
        b = start;
        replace(&b, 2, &preds, 1);
        HOLDS(go(STEP, &b, &s, &after, "a predicate") == LAQEMDIT_DONE && part(&after, 1, 9) == 1, "p%u", (unsigned)i);
        preds = 0xFF & ~(1u << i);
        replace(&b, 2, &preds, 1);
        HOLDS(i == 0 || (go(STEP, &b, &s, &after, "a predicate") == LAQEMDIT_DONE && part(&after, 1, 9) == 0x09090909), "not p%u", (unsigned)i);
    }
    w = 0x00400000;
    load_code(&w, 1);
    for (uint32_t i = 0; i < 32; i++, tried++) {
        words[0] = i;
        words[1] = 0xABCD1234;
        b = start;
        replace(&b, 6, words, 2);
        HOLDS(go(STEP, &b, &s, &after, "a load") == LAQEMDIT_DONE && parts(&after, 6) == 0 && part(&after, 1, i) == (i == 0 ? 0 : 0xABCD1234),
            "a load to r%u", (unsigned)i);
    }
    for (uint32_t kind = 0; kind < 4; kind++)
        for (uint32_t wait = 1; wait < 4; wait++, tried++) {
            static const uint32_t active[3] = {1, 7, 9};
            words[0] = kind;
            words[1] = wait;
            words[2] = 0x1110;
            words[3] = 0x2220;
            b = start;
            replace(&b, 5, words, kind >= 2 ? 4 : 3);
            replace(&b, 10, active, 3);
            HOLDS(go(STEP, &b, &s, &after, "a transfer") == LAQEMDIT_DONE, "a transfer that waits");
            if (wait > 1) {
                HOLDS(parts(&after, 5) == (kind >= 2 ? 4 : 3) && part(&after, 5, 0) == kind && part(&after, 5, 1) == wait - 1
                        && part(&after, 5, 2) == 0x1110 && (kind < 2 || part(&after, 5, 3) == 0x2220) && part(&after, 0, 0) == 4,
                    "a transfer of kind %u that waits on", (unsigned)kind);
                continue;
            }
            HOLDS(parts(&after, 5) == 0 && part(&after, 0, 0) == 0x1110, "where a transfer of kind %u goes", (unsigned)kind);
            HOLDS(part(&after, 0, 1) == (kind == 0 ? 0 : kind == 1 ? 0x1110 : 0x2220), "the base after a transfer of kind %u", (unsigned)kind);
            HOLDS(part(&after, 3, 4) == (kind == 1 ? 0 : 0x104) && part(&after, 3, 5) == (kind == 1 ? 4 : 0x105), "srb and sro");
            HOLDS(part(&after, 10, 0) == (kind < 3) && part(&after, 10, 1) == 7 && part(&after, 10, 2) == 10, "an xret alone ends a handler");
        }
    for (uint32_t n = 1; n < 4; n++, tried++) { /* the one that lands next, the other, both */
        static const uint32_t both[6] = {1, 0x51, 0x52, 2, 0x53, 0x54};
        b = start;
        replace(&b, 7, n == 2 ? both + 3 : both, n == 3 ? 6 : 3);
        HOLDS(go(STEP, &b, &s, &after, "products") == LAQEMDIT_DONE, "products under way");
        HOLDS(part(&after, 3, 0) == (n == 2 ? 0x100 : 0x51) && part(&after, 3, 1) == (n == 2 ? 0x101 : 0x52), "sl and sh of products %u", (unsigned)n);
        HOLDS(n == 1 ? parts(&after, 7) == 0
                     : parts(&after, 7) == 3 && part(&after, 7, 0) == 1 && part(&after, 7, 1) == 0x53 && part(&after, 7, 2) == 0x54,
            "products %u under way after a bundle", (unsigned)n);
    }
    printf("places: %u words of a record by what a bundle makes of them\n", tried);
}

/* Settings outside the limits: every entry answers 1, whether what else it is handed is good or not. */
static void refused_by_all(const struct settings *s, const char *what)
{
    struct lengths n = {code_length, MAIN, LOCAL, ROOM};
    struct box none, after;
    struct laqemdit_checked c;
    none = stops[0];
    none.length = 0;
    HOLDS(call(9, &stops[0], ROOM, s, &after, what) == 1, "%s with a good record", what);
    HOLDS(call(STEP, &stops[0], ROOM, s, &after, what) == 1, "a step with %s", what);
    HOLDS(call(9, &none, 0, s, &after, what) == 1, "%s without record and output", what);
    HOLDS(call(STEP, &none, 0, s, &after, what) == 1, "a step with %s without record and output", what);
    for (int k = 0; k < 4; k++) {
        n.out = k < 2 ? ROOM : 0;
        open_box(1, &n, k % 2 == 0 ? 0 : 3, s, &after);
    }
    c = laqemdit_check(code, code_length, 0, 0, 0, MAIN, LOCAL, s->words, s->lo, s->hi, s->on, s->blocks, s->bytes);
    HOLDS(c.answer == 1 && c.address == 0 && c.rule == 0, "the check with %s gives %u", what, (unsigned)c.answer);
}

/* Settings inside the limits: no entry answers 1. */
static void taken_by_all(const struct settings *s, const char *what)
{
    struct box b, none, after;
    opened(&b, 68, s);
    none = b;
    none.length = 0;
    HOLDS(go(0, &b, s, &after, what) == LAQEMDIT_SPENT, "%s are refused", what);
    HOLDS(call(0, &none, ROOM, s, &after, what) == 14, "no record with %s", what);
    HOLDS(laqemdit_check(code, code_length, 0, 0, 0, MAIN, LOCAL, s->words, s->lo, s->hi, s->on, s->blocks, s->bytes).answer
            == LAQEMDIT_ACCEPTED,
        "the check refuses %s", what);
}

/* Lengths of memories, which the other tries do not change. */
static void try_memories(void)
{
    static const struct {
        struct lengths n;
        uint32_t hi, due;
    } tries[] = {
        {{160, 65536, 65536, ROOM}, 65536, 0}, {{160, 65537, 64, ROOM}, 65536, 1}, {{160, 65536, 65537, ROOM}, 65536, 1},
        {{160, 255, 64, ROOM}, 256, 1}, {{160, 256, 0, ROOM}, 256, 0}, {{160, 259, 1, ROOM}, 256, 0}, {{160, 259, 1, ROOM}, 260, 1},
        {{160, 0, 0, ROOM}, 0, 0}, {{160, 3, 0, ROOM}, 4, 1},
    };
    for (size_t i = 0; i < sizeof tries / sizeof tries[0]; i++) {
        const struct lengths *n = &tries[i].n;
        const struct settings s = {4, 0, tries[i].hi, 0, 0, 0};
        struct box b;
        open_box(tries[i].due, n, 68, &s, &b);
        HOLDS(laqemdit_check(code, n->code, 0, 0, 0, n->main, n->local, s.words, s.lo, s.hi, 0, 0, 0).answer == tries[i].due,
            "the check with memories of %lu and %lu bytes", (unsigned long)n->main, (unsigned long)n->local);
    }
}

/* Settings outside the limits, and those just inside. */
static void try_settings(void)
{
    static const struct settings bad[] = {
        {0, 128, 256, 1, 2, 104}, {1, 128, 256, 1, 2, 104}, {2, 128, 256, 1, 2, 104}, {3, 128, 256, 1, 2, 104}, {6, 128, 256, 1, 2, 104},
        {5, 128, 256, 1, 2, 104}, {12, 128, 256, 1, 2, 104}, {513, 128, 256, 1, 2, 104}, {1024, 128, 256, 1, 2, 104},
        {0x80000000, 128, 256, 1, 2, 104}, {0xFFFFFFFF, 128, 256, 1, 2, 104},
        {4, 126, 256, 1, 2, 104}, {4, 129, 256, 1, 2, 104}, {4, 128, 254, 1, 2, 104}, {4, 128, 255, 1, 2, 104}, {4, 128, 260, 1, 2, 104},
        {4, 256, 252, 1, 2, 104}, {4, 0, 0xFFFFFFFC, 1, 2, 104},
        {4, 128, 256, 1, 0, 104}, {4, 128, 256, 1, 17, 104}, {4, 128, 256, 1, 0xFFFFFFFF, 104}, {4, 128, 256, 1, 2, 63},
        {4, 128, 256, 1, 2, 16385}, {4, 128, 256, 1, 2, 0}, {4, 128, 256, 2, 0, 104}, {4, 128, 256, 0x80000000, 2, 63},
    };
    static const struct settings good[] = {
        {4, 128, 256, 1, 16, 16384}, {4, 128, 256, 2, 1, 64}, {4, 128, 256, 0x80000000, 16, 64}, {4, 0, 256, 1, 2, 104},
        {4, 256, 256, 1, 2, 104}, {4, 0, 0, 1, 2, 104}, {4, 128, 256, 0, 0, 0}, {4, 128, 256, 0, 17, 16385},
    };
    static const size_t bad_lengths[] = {0, 2, 6, 65537, 65540};
    unsigned tried = 0;
    char what[40];
    LOAD(program);
    for (size_t i = 0; i < sizeof bad / sizeof bad[0]; i++, tried++) {
        sprintf(what, "bad settings %lu", (unsigned long)i);
        refused_by_all(&bad[i], what);
    }
    for (size_t i = 0; i < sizeof bad_lengths / sizeof bad_lengths[0]; i++, tried++) {
        code_length = bad_lengths[i];
        sprintf(what, "code of %lu bytes", (unsigned long)code_length);
        refused_by_all(&settings, what);
    }
    LOAD(program);
    for (size_t i = 0; i < sizeof good / sizeof good[0]; i++) {
        sprintf(what, "good settings %lu", (unsigned long)i);
        taken_by_all(&good[i], what);
    }
    try_memories();
    printf("settings: %u refused with 1, %lu accepted\n", tried, (unsigned long)(sizeof good / sizeof good[0]));
}

/* Records of other stack caches, each way. */
static void try_sizes(void)
{
    struct settings s = {4, 128, 256, 0, 0, 0}, t = s;
    for (s.words = 4; s.words <= 512; s.words *= 2)
        for (t.words = 4; t.words <= 512; t.words *= 2) {
            struct box b, after;
            opened(&b, 68, &s);
            HOLDS(go(0, &b, &t, &after, "a cache of another size") == (s.words == t.words ? LAQEMDIT_SPENT : 14),
                "a record of %u cache words under %u", (unsigned)s.words, (unsigned)t.words);
            HOLDS(s.words != t.words || same_box(&after, &b),
                "a record of %u cache words comes back otherwise", (unsigned)s.words);
        }
    printf("stack caches: records of 8 sizes under 8 sizes\n");
}

/* One bundle each that is refused, behind one or two that are done, and what is left then. */
static void try_refusals(void)
{
    static const struct {
        uint32_t number, on, words[3];
    } tries[] = { /* vector 5 has a handler, at 8; no other has one */
        {2, 0, {0x00020001, 0x00020002, 0x80400000}},  /* a pair whose second word is past the end */
        {3, 0, {0x00020001, 0x00020002, 0x05C00000}},  /* no bundle */
        {4, 0, {0x00020001, 0x04C00001, 0x04C00001}},  /* br in the delay slot of br */
        {5, 0, {0x00020001, 0x00020001, 0x02821380}},  /* lhm r1 r1 0, r1 = 1 */
        {6, 0, {0x00020001, 0x02C60080, 0x02820090}},  /* swm r0 0 r1, then lwl r1 r0 16: past local memory */
        {7, 0, {0x00020001, 0x03000002, 0x03000005}},  /* sres 5 with 4 cache words */
        {8, 0, {0x00020001, 0x02C60080, 0x03100001}},  /* sens 1 at the stack area's end */
        {16, 0, {0x00020001, 0x05800005, 0x05800005}}, /* trap 5, and trap 5 in its handler */
        {17, 0, {0x00020001, 0x02C60080, 0x05800001}}, /* trap 1: no handler */
        {17, 0, {0x00020001, 0x02C60080, 0x05800025}}, /* trap 37: no vector */
        {13, 1, {0x00020001, 0x02C60080, 0x04000000}}, /* callnd 0: no block has base 0 */
    };
    put_word(table + 4 * 5, 8);
    for (size_t i = 0; i < sizeof tries / sizeof tries[0]; i++) {
        struct settings s = settings;
        struct box b, two, ran, stepped;
        uint32_t number = tries[i].number;
        s.on = tries[i].on;
        load_code(tries[i].words, 3);
        opened(&b, 0, &s);
        HOLDS(go(2, &b, &s, &two, "two bundles") == LAQEMDIT_SPENT, "two bundles before the refusal %u", (unsigned)number);
        HOLDS(go(99, &b, &s, &ran, "a refused run") == number, "the run is not refused with %u", (unsigned)number);
        HOLDS(same_box(&ran, &two), "a run refused with %u does not leave what two bundles leave", (unsigned)number);
        HOLDS(counts_of(ran.record).number[0] == 2, "a run refused with %u does not count two bundles", (unsigned)number);
        HOLDS(go(STEP, &two, &s, &stepped, "a refused step") == number, "the step is not refused with %u", (unsigned)number);
        HOLDS(same_state(&stepped, &two) && same_memories(&stepped, &two), "a step refused with %u changes the box", (unsigned)number);
        HOLDS(all(stepped.record + section(stepped.record, 8) + 4, 0, 48), "a step refused with %u counts", (unsigned)number);
        HOLDS(go(0, &two, &s, &stepped, "budget 0") == LAQEMDIT_SPENT, "spent comes after the refusal %u", (unsigned)number);
    }
    put_word(table + 4 * 5, 0);
    printf("refusals of a bundle: 2 3 4 5 6 7 8 13 16 17, each of a run's third bundle and of a step\n");
}

/* A block and two handlers, each behind its size. The mat returns at once, the photo cell late. */
static const uint32_t interrupted[] = {
    0x00000024, /*  0  size of the block at 4 */
    0x00021005, /*  4  addi r1 r1 5 */
    0x020010A0, /*  8  mul r1 r1 */
    0x04C00003, /* 12  br 3: to 24 */
    0x00042003, /* 16  addi r2 r2 3 */
    0x00021001, /* 20  addi r1 r1 1 */
    0x05800003, /* 24  trap 3: the mat */
    0x00021001, /* 28  addi r1 r1 1 */
    0x0480000B, /* 32  brnd 11: to 76, the end */
    0x00400000, /* 36  subi r0 r0 0 */
    0x0000000C, /* 40  size of the block at 44 */
    0x02460032, /* 44  mfs r3 sl: the mat, vector 3 */
    0x02084180, /* 48  add r4 r4 r3 */
    0x06000001, /* 52  xretnd */
    0x00000010, /* 56  size of the block at 60 */
    0x06400001, /* 60  xret: the photo cell, vector 9 */
    0x024A003A, /* 64  mfs r5 sxo */
    0x020C6280, /* 68  add r6 r6 r5 */
    0x000E7001, /* 72  addi r7 r7 1 */
};

/* Worked out by hand. The photo cell is taken at the start (bundles 1 to 4). After six bundles the mat is, at 12 (7 to 9): it reads the old sl,
 * since the product of bundle 6 lands in bundle 8. The br and its two delay slots (10 to 12) keep the next one out, which is taken at 24, and
 * then the two that are due by then, all with sxo 20: mat (13 to 15), photo cell (16 to 19 and 20 to 23). The trap is bundle 24, its handler 25
 * to 27, and 28 and 29 lead to the end. Three xretnd and the trap take 4 cycles, brnd 3. Two blocks are held: looked up are 60 and 4 (both
 * fetched), 44 (60 goes), 4, 44, 4, 60 (4 goes), 4 (44 goes), 60, 4, 44 (60 goes), 4. */
enum { INTERRUPTED = 29 };
static const struct counts interrupted_counts = {{INTERRUPTED, INTERRUPTED + 4 * 3 + 2, 0, 0, 6, 32}};

static void load_interrupts(void)
{
    static const uint32_t records[5][2] = {{0, 9}, {6, 3}, {12, 3}, {12, 9}, {13, 9}};
    for (size_t i = 0; i < 5; i++) {
        put_word(list + 8 * i, records[i][0]);
        put_word(list + 8 * i + 4, records[i][1]);
    }
    list_length = 8 * 5;
    table_length = 128;
    memset(table, 0, sizeof table);
    put_word(table + 4 * 3, 44);
    put_word(table + 4 * 9, 60);
}

/* The whole replay, and the boxes on its way. */
static void try_replay(void)
{
    static const uint32_t registers[8] = {0, 7, 3, 25, 50, 20, 40, 3};
    struct box now, next, ran;
    unsigned active = 0, waiting = 0;
    LOAD(interrupted);
    load_interrupts();
    opened(&now, 4, &settings);
    stops[0] = now;
    for (uint32_t m = 1; m <= INTERRUPTED; m++) {
        HOLDS(go(STEP, &now, &settings, &next, "a step of a replay") == LAQEMDIT_DONE, "step %u of the replay", (unsigned)m);
        HOLDS(go(m, &stops[0], &settings, &ran, "a replay") == (m < INTERRUPTED ? LAQEMDIT_SPENT : LAQEMDIT_ENDED), "a replay of %u bundles", (unsigned)m);
        HOLDS(same_state(&next, &ran) && same_memories(&next, &ran), "%u steps of a replay are not a run of it", (unsigned)m);
        HOLDS(part(&ran, 10, 2) == m, "the bundles done after %u", (unsigned)m);
        active += part(&ran, 10, 0);
        waiting += parts(&ran, 5) != 0 && part(&ran, 5, 0) == 3;
        stops[m] = now = ran;
        stop_counts[m] = counts_of(ran.record);
    }
    HOLDS(same_counts(counts_of(now.record), interrupted_counts), "the counts of the replay");
    for (uint32_t i = 0; i < 8; i++)
        HOLDS(part(&now, 1, i) == registers[i], "r%u at the replay's end is %08X", (unsigned)i, (unsigned)part(&now, 1, i));
    HOLDS(part(&now, 0, 0) == 76 && part(&now, 0, 1) == 4 && part(&now, 3, 6) == 4 && part(&now, 3, 7) == 24, "the replay's end");
    HOLDS(parts(&now, 9) == 2 && part(&now, 9, 0) == 4 && part(&now, 9, 1) == 44, "blocks held at the replay's end");
    HOLDS(part(&now, 10, 0) == 0 && part(&now, 10, 1) == 5, "handler mark and place at the replay's end");
    printf("replay: %u bundles, a handler is active after %u of them, an xret waits after %u\n", INTERRUPTED, active, waiting);
}

/* From every stop of the replay with every rest, over the same list; and over none, where no interrupt is taken. */
static void try_replay_going_on(void)
{
    unsigned pairs = 0;
    struct box end;
    for (uint32_t m = 0; m <= INTERRUPTED; m++)
        for (uint32_t n = 0; m + n <= INTERRUPTED + 2; n++, pairs++) {
            uint32_t k = m + n < INTERRUPTED ? m + n : INTERRUPTED;
            uint32_t a = go(n, &stops[m], &settings, &end, "a replay that goes on");
            HOLDS(a == (k < INTERRUPTED ? LAQEMDIT_SPENT : LAQEMDIT_ENDED), "%u bundles after %u of the replay answer %u", (unsigned)n, (unsigned)m, (unsigned)a);
            HOLDS(same_state(&end, &stops[k]) && same_memories(&end, &stops[k]), "%u bundles after %u of the replay", (unsigned)n, (unsigned)m);
            HOLDS(m == 0 || same_counts(sum(stop_counts[m], counts_of(end.record)), stop_counts[k]), "the counts of a replay in parts");
        }
    list_length = 0;
    HOLDS(go(99, &stops[0], &settings, &end, "no interrupts") == LAQEMDIT_ENDED && counts_of(end.record).number[0] == 11, "no interrupts");
    HOLDS(part(&end, 10, 1) == 0 && part(&end, 10, 2) == 11, "place and bundles done without interrupts");
    load_interrupts();
    printf("replay stopped and carried on: %u ways of two parts\n", pairs);
}

/* Lists and tables that are refused: 15 behind 14, before ended and spent. */
static void unlisted(const char *what)
{
    struct box bad = stops[3], after;
    bad.length--;
    HOLDS(go(STEP, &stops[3], &settings, &after, what) == 15, "a step with %s", what);
    HOLDS(go(0, &stops[3], &settings, &after, what) == 15, "budget 0 with %s", what);
    HOLDS(go(9, &stops[INTERRUPTED], &settings, &after, what) == 15, "an ended box with %s", what);
    HOLDS(go(9, &bad, &settings, &after, what) == 14, "a record cut short with %s", what);
    HOLDS(call(9, &stops[3], laqemdit_longest(settings.words) - 1, &settings, &after, what) == 14, "a short output with %s", what);
    load_interrupts();
}

static void try_unlisted(void)
{
    unsigned tried = 0;
    struct box after;
    for (size_t n = 0; n < 48; n++)
        if (n % 8 != 0) {
            list_length = n;
            unlisted("a list of a wrong length");
            tried++;
        }
    for (size_t n = 0; n <= sizeof table; n++)
        if (n != 128) {
            table_length = n;
            unlisted("a table of a wrong length");
            tried++;
        }
    for (size_t i = 0; i < 5; i++) {
        static const uint32_t vectors[4] = {32, 33, 256, 0xFFFFFFFF};
        for (int k = 0; k < 4; k++, tried++) {
            put_word(list + 8 * i + 4, vectors[k]);
            unlisted("a vector above 31");
        }
        put_word(list + 8 * i, i == 4 ? 11 : 14);
        unlisted("numbers that fall");
        tried++;
        put_word(list + 8 * i + 4, 31);
        HOLDS(go(0, &stops[3], &settings, &after, "vector 31") == LAQEMDIT_SPENT, "vector 31 is refused");
        load_interrupts();
    }
    printf("lists and tables: %u refused with 15\n", tried);
    list_length = 0;
    memset(table, 0, sizeof table);
}

static void checked(uint32_t w, uint32_t registers, uint32_t predicates, uint32_t others, uint32_t answer, uint32_t rule)
{
    struct laqemdit_checked c;
    uint32_t words[2] = {0x00400000, 0};
    words[1] = w;
    load_code(words, 2);
    c = laqemdit_check(code, code_length, registers, predicates, others, MAIN, LOCAL, 4, 128, 256, 0, 0, 0);
    HOLDS(c.answer == answer, "the check of %08X under %X %X %X answers %u", (unsigned)w, (unsigned)registers, (unsigned)predicates,
        (unsigned)others, (unsigned)c.answer);
    HOLDS(c.address == (answer == 0 || answer == 1 ? 0 : 4) && c.rule == rule, "the check of %08X under %X %X %X: address %u, rule %u",
        (unsigned)w, (unsigned)registers, (unsigned)predicates, (unsigned)others, (unsigned)c.address, (unsigned)c.rule);
}

/* Each answer of the check, each rule alone, each bit of the masks that matters, and those above that do not. */
static void try_check(void)
{
    enum { R3 = 8, P1 = 2, SL = 1, SH = 2, MAINS = 4, LOCALS = 8, STACK = 16 };
    unsigned long before = compared;
    uint32_t n;
    checked(0x00400000, 0, 0, 0, 0, 0);
    checked(0x05C00000, 0, 0, 0, 3, 0);
    checked(0x80400000, 0, 0, 0, 2, 0);
    checked(0x00400000, 1, 0, 0, 1, 0);
    checked(0x00400000, 0, 1, 0, 1, 0);
    checked(0x05C00000, 1, 0, 0, 1, 0);
    checked(0x00400000, 0xFFFFFFFE, 0xFFFFFFFE, 0xFFFFFFFF, 0, 0);
    checked(0x00400000, 0, 0xFFFFFF00, 0xFFFFFFE0, 0, 0);
    checked(0x0CC00001, 0, P1, 0, 9, 'A');        /* p1 br 1 */
    checked(0x0CC00001, 0, P1 << 1, 0, 0, 0);     /* p2 is not its guard */
    checked(0x02022180, R3, 0, 0, 9, 'B');        /* add r1 r2 r3 */
    checked(0x02022180, R3 | 2, 0, 0, 0, 0);      /* to a private r1 */
    checked(0x0A021080, 0, P1, 0, 9, 'B');        /* p1 add r1 r1 r1 */
    checked(0x0A021080, 0, P1 << 8, 0, 0, 0);
    checked(0x02823180, R3 | 2, 0, 0, 9, 'C');    /* lwm r1 r3 0 */
    checked(0x02C60180, R3, 0, 0, 9, 'D');        /* swm r0 0 r3 */
    checked(0x02C60180, R3, 0, MAINS, 0, 0);
    checked(0x02C60180, R3, 0, LOCALS | STACK | SL | SH, 9, 'D');
    checked(0x02C20180, R3, 0, LOCALS, 0, 0);     /* swl r0 0 r3 */
    checked(0x02C20180, R3, 0, MAINS | STACK | SL | SH, 9, 'D');
    checked(0x02C00180, R3, 0, STACK, 0, 0);      /* sws r0 0 r3 */
    checked(0x02C00180, R3, 0, MAINS | LOCALS | SL | SH, 9, 'D');
    checked(0x06403004, R3, 0, 0, 9, 'E');        /* call r3 */
    checked(0x03143000, R3, 0, 0, 9, 'E');        /* sens r3 */
    checked(0x02403022, R3, 0, SL, 0, 0);         /* mts sl r3 */
    checked(0x02403022, R3, 0, SH | MAINS | LOCALS | STACK, 9, 'B');
    checked(0x02403023, R3, 0, SH, 0, 0);         /* mts sh r3 */
    checked(0x02403023, R3, 0, SL | MAINS | LOCALS | STACK, 9, 'B');
    checked(0x020031A0, R3, 0, SL, 9, 'B');       /* mul r3 r3 */
    checked(0x020031A0, R3, 0, SL | SH, 0, 0);
    for (n = 1; n < 32; n++) {
        checked(0x02C60000 | n << 7, 1u << n, 0, 0, 9, 'D'); /* swm r0 0 rn */
        checked(0x02C60000 | n << 7, 0xFFFFFFFE & ~(1u << n), 0, 0, 0, 0);
    }
    for (n = 1; n < 8; n++) {
        checked(0x04C00001 | n << 27, 0, 1u << n, 0, 9, 'A'); /* pn br 1 */
        checked(0x04C00001 | n << 27, 0, 0xFE & ~(1u << n), 0, 0, 0);
    }
    printf("check: %lu comparisons, answers 0 1 2 3 9, rules A to E\n", compared - before);
}

int main(void)
{
    try_longest();
    try_open();
    try_open_refused();
    try_run();
    try_steps();
    try_going_on();
    try_damage();
    try_lengths();
    try_exchanged();
    try_rooms();
    try_counts();
    try_sections();
    try_places();
    try_settings();
    try_sizes();
    try_refusals();
    try_replay();
    try_replay_going_on();
    try_unlisted();
    try_check();
    printf("bench: all %lu comparisons hold\n", compared);
    return 0;
}
