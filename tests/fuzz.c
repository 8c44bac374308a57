/* Calls the compiler on the inputs of libFuzzer, two or four times each, and aborts where an answer is not as the header says. */
#define _DEFAULT_SOURCE
#include "check.h"
#include "pages.h"

enum { UNARY = 21, BINARY = 15, VARIABLE = 2, CHOICE = 5, TAGS = 9, STACK = 1, KINDS = 3, FLAGS = 7, GUARD = 64 };

static struct room file_room, work_room, out_room;
static uint32_t list[WORDS];
static unsigned long answers[LAST_NUMBER + 1];

size_t LLVMFuzzerMutate(uint8_t *bytes, size_t size, size_t most);
size_t LLVMFuzzerCustomMutator(uint8_t *bytes, size_t size, size_t most, unsigned seed);
int LLVMFuzzerInitialize(int *count, char ***words);
int LLVMFuzzerTestOneInput(const uint8_t *bytes, size_t size);

static void expect(int holds, const char *what)
{
    if (!holds) {
        fprintf(stderr, "%s\n", what);
        abort();
    }
}

/* One call over dirty memory: work fills its pages, and out stands at the end of its own with dirty words before it. */
static struct zubmanger_numbers call(const uint8_t *file, size_t len, size_t out_len, uint8_t dirt)
{
    size_t before = WORDS - out_len < GUARD ? WORDS - out_len : GUARD;
    struct lent l = { file, len, (uint32_t *)work_room.from, WORDS, last(out_room, 4 * out_len), out_len };
    memset(l.work, dirt, 4 * WORDS);
    memset(l.out - before, dirt, 4 * (before + out_len));
    struct zubmanger_numbers r = compile(l);
    const char *wrong = wrong_after(l, r);
    expect(wrong == NULL, wrong);
    expect(all(l.out - before, 0, before, dirt * 0x01010101u), "written before the output");
    return r;
}

/* Too little room: one word short, and a size that follows from the bytes, so that a list is cut at any of its operations. */
static void try_short_room(const uint8_t *file, size_t len, struct zubmanger_numbers full)
{
    size_t exact = 6 * (size_t)full.ops, mix = len;
    for (size_t i = 0; i < len; i++)
        mix = 31 * mix + file[i];
    const size_t rooms[2] = { exact - 1, mix % exact };
    for (size_t i = 0; i < 2; i++)
        expect(same(call(file, len, rooms[i], 0xff), answer_in(full, WORDS, rooms[i])), "another answer in too little room");
}

int LLVMFuzzerTestOneInput(const uint8_t *bytes, size_t size)
{
    allow(file_room, PROT_READ | PROT_WRITE);
    const uint8_t *file = memcpy(last(file_room, size), bytes, size);
    allow(file_room, PROT_READ);
    struct zubmanger_numbers full = call(file, size, WORDS, 0x5a);
    answers[full.number]++;
    size_t exact = full.number == 0 ? 6 * (size_t)full.ops : WORDS;
    memcpy(list, out_room.from, 4 * exact);
    expect(same(full, call(file, size, exact, 0xc3)), "another answer over other dirt");
    expect(memcmp(list, last(out_room, 4 * exact), 4 * exact) == 0, "another list over other dirt");
    if (full.ops > 0)
        try_short_room(file, size, full);
    return 0;
}

static void print_answers(void)
{
    fprintf(stderr, "answers: %lu lists; refused", answers[0]);
    for (int k = 1; k <= LAST_NUMBER; k++)
        fprintf(stderr, " %d: %lu%s", k, answers[k], k < LAST_NUMBER ? "," : "\n");
}

int LLVMFuzzerInitialize(int *count, char ***words)
{
    (void)count;
    (void)words;
    file_room = reserve(FILE_MAX + 1);
    work_room = reserve(4 * WORDS);
    out_room = reserve(4 * WORDS);
    return atexit(print_answers);
}

/* A byte as it is if it is 1 to most, or else another that is. */
static uint8_t fit(uint8_t byte, uint8_t most)
{
    return byte >= 1 && byte <= most ? byte : (uint8_t)(1 + byte % most);
}

/* A place of one of the kinds; on the stack its index stays below any first temporary that mend leaves. */
static void mend_place(uint8_t *place, uint8_t kinds)
{
    place[0] = fit(place[0], kinds);
    if (place[0] == STACK)
        place[2] = 0;
}

/* Makes a tree of the bytes from one on, and gives its end, or 0 where the bytes are too few. */
static size_t mend_tree(uint8_t *bytes, size_t at, size_t size)
{
    static const uint8_t codes[TAGS + 1] = { 0, 0, 0, UNARY, BINARY };
    static const uint8_t length[TAGS + 1] = { 0, 3, 4, 2, 2, 4, 2, 2, 5, 5 };
    static const uint8_t sides[TAGS + 1] = { 0, 0, 0, 1, 2, 2, 1, 2, 1, 2 };
    for (size_t trees = 1; trees > 0;) {
        if (at + 4 > size)
            return 0;
        /* Leaves only, once the bytes left are just enough for them. */
        uint8_t tag = fit(bytes[at], (size - at) / 4 > trees + 2 ? TAGS : 2);
        bytes[at] = tag;
        if (tag == VARIABLE || tag == CHOICE)
            mend_place(bytes + at + 1, KINDS);
        else if (codes[tag] > 0)
            bytes[at + 1] = fit(bytes[at + 1], codes[tag]);
        at += length[tag];
        trees = trees + sides[tag] - 1;
    }
    return at;
}

/* Makes the header, the pairs and the statements fit each other, so that checks 3 to 5 and 7 pass. */
static void mend(uint8_t *bytes, size_t size)
{
    if (size < 8)
        return;
    bytes[0] = 1 + fit((uint8_t)(bytes[0] - 1), 31);
    bytes[1] &= FLAGS;
    bytes[2] = fit(bytes[2], 8);
    bytes[3] = 0;
    bytes[7] = fit(bytes[7], 255);
    size_t asked = bytes[4] + 256 * (size_t)(bytes[5] & 1), count = 0;
    size_t at = 8 + 4 * asked;
    while (count < asked && count < 256 && at + 7 <= size) {
        mend_place(bytes + at, KINDS - 1);
        size_t end = mend_tree(bytes, at + 3, size);
        if (end == 0)
            break;
        const size_t pair[4] = { at, at >> 8, end - at, (end - at) >> 8 };
        for (size_t i = 0; i < 4; i++)
            bytes[8 + 4 * count + i] = (uint8_t)pair[i];
        at = end;
        count++;
    }
    bytes[4] = (uint8_t)count;
    bytes[5] = (uint8_t)(count >> 8);
}

/* Half of the changed sheets are mended: few would pass the checks of offsets and lengths by chance. */
size_t LLVMFuzzerCustomMutator(uint8_t *bytes, size_t size, size_t most, unsigned seed)
{
    size = LLVMFuzzerMutate(bytes, size, most);
    if (seed & 1)
        mend(bytes, size);
    return size;
}
