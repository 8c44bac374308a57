/* Calls the compiler from C with long, exact and short lent memory. Reads lines 'HEX N T': a sheet and the counts of its list. */
#include "check.h"

#include <stdlib.h>

enum { GUARD = 64, DIRTY = 0x5a5a5a5a };

static uint8_t file[FILE_MAX];
static uint32_t work[WORDS + GUARD], out[WORDS + GUARD], list[WORDS];
static unsigned long calls;

static void expect(int holds, const char *what, const char *sheet)
{
    if (!holds) {
        printf("%s: %s\n", what, sheet);
        exit(1);
    }
}

/* One call over dirty memory; nothing past what was lent is touched. */
static void call(size_t len, size_t work_len, size_t out_len, struct zubmanger_numbers answer, const char *sheet)
{
    struct lent l = { file, len, work, work_len, out, out_len };
    memset(work, 0x5a, sizeof work);
    memset(out, 0x5a, sizeof out);
    struct zubmanger_numbers r = compile(l);
    calls++;
    const char *wrong = wrong_after(l, r);
    expect(wrong == NULL, wrong, sheet);
    expect(all(work, work_len, work_len + GUARD, DIRTY), "written past the work", sheet);
    expect(all(out, out_len, out_len + GUARD, DIRTY), "written past the output", sheet);
    expect(same(r, answer_in(answer, work_len, out_len)), "another answer", sheet);
}

static void try_sheet(size_t len, struct zubmanger_numbers answer, const char *sheet)
{
    size_t exact = 6 * (size_t)answer.ops;
    call(len, WORDS, WORDS, answer, sheet);
    memcpy(list, out, 4 * exact);
    call(len, WORDS, exact, answer, sheet);
    expect(memcmp(list, out, 4 * exact) == 0, "another list in exact room", sheet);
    if (exact > 0)
        call(len, WORDS, exact - 1, answer, sheet);
    call(len, WORDS - 1, WORDS, answer, sheet);
    call(len, 0, exact, answer, sheet);
}

int main(void)
{
    static char hex[2 * FILE_MAX + 1];
    unsigned long sheets = 0;
    struct zubmanger_numbers answer = { 0, 0, 0 };
    while (scanf("%32768s %u %u", hex, &answer.ops, &answer.temps) == 3) {
        try_sheet(bytes_of(hex, file), answer, hex);
        sheets++;
    }
    printf("%lu sheets, %lu calls from C, all as expected\n", sheets, calls);
    return sheets == 0;
}
