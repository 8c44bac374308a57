/*
 * Calls the compiler with lent memory of many sizes, so placed that a touch outside it is seen.
 *
 *     guarded end|start|heap [FOLDER]
 *
 * end, start: each slice ends right before, or begins right after, pages that may not be touched; the file may only be read.
 * heap: each slice is a heap block of its own, not written before the call: for valgrind.
 *
 * Reads lines 'HEX WORK OUT NUMBER N T': a sheet, lent words and the recorded answer. With a FOLDER, each of its files is a
 * sheet whose answer is not known.
 */
#define _DEFAULT_SOURCE
#include "check.h"
#include "pages.h"

#include <dirent.h>
#include <signal.h>
#include <unistd.h>

enum { LONGEST = FILE_MAX + 2 };
enum place { END, START, HEAP };

struct sheet {
    uint8_t bytes[LONGEST];
    size_t len;
};

static enum place place;
static struct room file_room, work_room, out_room;
static struct sheet sheet;
static struct lent now;
static unsigned long sheets, calls;
static uint32_t list[WORDS];

static void fail(const char *what)
{
    printf("%s: sheet %lu, lent work %zu, out %zu: ", what, sheets + 1, now.work_len, now.out_len);
    for (size_t i = 0; i < sheet.len; i++)
        printf("%02x", sheet.bytes[i]);
    printf("\n");
    fflush(stdout);
    _exit(1);
}

static void expect(int holds, const char *what)
{
    if (!holds)
        fail(what);
}

static int within(struct room room, const uint8_t *at)
{
    return at >= room.from - GUARD_BYTES && at < room.from + room.size + GUARD_BYTES;
}

static void touched(int signal, siginfo_t *info, void *context)
{
    (void)signal;
    (void)context;
    const uint8_t *at = info->si_addr;
    if (within(file_room, at))
        printf("file of %zu bytes, touched at byte %td: ", now.file_len, at - now.file);
    else if (within(work_room, at))
        printf("work of %zu words, touched at byte %td: ", now.work_len, at - (const uint8_t *)now.work);
    else if (within(out_room, at))
        printf("out of %zu words, touched at byte %td: ", now.out_len, at - (const uint8_t *)now.out);
    fail("memory that is not lent");
}

static void *lend(struct room room, size_t bytes)
{
    if (place == HEAP)
        return malloc(bytes);
    return place == END ? last(room, bytes) : room.from;
}

static void *lend_file(void)
{
    if (place != HEAP)
        allow(file_room, PROT_READ | PROT_WRITE);
    void *file = memcpy(lend(file_room, sheet.len), sheet.bytes, sheet.len);
    if (place != HEAP)
        allow(file_room, PROT_READ);
    return file;
}

static void *lend_words(struct room room, size_t words)
{
    void *lent = lend(room, 4 * words);
    if (place != HEAP)
        memset(lent, 1 + (int)(calls % 255), 4 * words);
    return lent;
}

static void give_back(void)
{
    if (place == HEAP) {
        free((void *)now.file);
        free(now.work);
        free(now.out);
    }
}

/* One call; keeps the list if it is asked to, or else compares it with the one that was kept. */
static struct zubmanger_numbers call(size_t work_len, size_t out_len, int keep)
{
    now = (struct lent){ lend_file(), sheet.len, lend_words(work_room, work_len), work_len,
                         lend_words(out_room, out_len), out_len };
    struct zubmanger_numbers r = compile(now);
    calls++;
    const char *wrong = wrong_after(now, r);
    expect(wrong == NULL, wrong);
    size_t bytes = 24 * (size_t)r.ops;
    if (keep)
        memcpy(list, now.out, bytes);
    expect(memcmp(list, now.out, bytes) == 0, "another list in other memory");
    give_back();
    return r;
}

/* One size of each; what the answer is follows from the one in full memory. */
static void try_size(size_t work_len, size_t out_len, struct zubmanger_numbers full)
{
    expect(same(call(work_len, out_len, 0), answer_in(full, work_len, out_len)), "another answer");
}

/* Each pair of sizes, and rooms that end one word before the end of each operation. */
static void try_sizes(void)
{
    struct zubmanger_numbers full = call(WORDS, WORDS, 1);
    size_t exact = 6 * (size_t)full.ops;
    const size_t works[] = { 0, 1, WORDS - 1, WORDS, WORDS + 1 };
    const size_t outs[] = { 0, 1, WORDS, exact, exact + 1, exact - 1 };
    /* The last three sizes of an empty list are no others. */
    size_t kinds = exact > 0 ? 6 : 3;
    for (size_t w = 0; w < 5; w++)
        for (size_t o = 0; o < kinds; o++)
            try_size(works[w], outs[o], full);
    for (size_t room = 5; room < exact; room += 6)
        try_size(WORDS, room, full);
}

static void try_vector(size_t work_len, size_t out_len, struct zubmanger_numbers recorded)
{
    expect(same(call(work_len, out_len, 1), recorded), "not the recorded answer");
    try_sizes();
    sheet.bytes[sheet.len++] = 0;
    try_sizes();
    sheet.len--;
    if (sheet.len > 0) {
        sheet.len--;
        try_sizes();
    }
    sheets++;
}

static void try_vectors(void)
{
    static char hex[2 * LONGEST + 1];
    size_t work_len, out_len;
    struct zubmanger_numbers r;
    while (scanf("%32772s %zu %zu %u %u %u", hex, &work_len, &out_len, &r.number, &r.ops, &r.temps) == 6) {
        sheet.len = bytes_of(hex, sheet.bytes);
        try_vector(work_len, out_len, r);
    }
}

static void try_folder(const char *folder)
{
    DIR *files = opendir(folder);
    expect(files != NULL && chdir(folder) == 0, "no such folder");
    for (struct dirent *entry; (entry = readdir(files)) != NULL;) {
        if (entry->d_name[0] == '.')
            continue;
        FILE *file = fopen(entry->d_name, "rb");
        expect(file != NULL, "a file that cannot be read");
        sheet.len = fread(sheet.bytes, 1, LONGEST, file);
        fclose(file);
        try_sizes();
        sheets++;
    }
    closedir(files);
}

static void guard_pages(void)
{
    const struct sigaction action = { .sa_sigaction = touched, .sa_flags = SA_SIGINFO };
    file_room = reserve(LONGEST);
    work_room = reserve(4 * (WORDS + 1));
    out_room = reserve(4 * WORDS);
    sigaction(SIGSEGV, &action, NULL);
    sigaction(SIGBUS, &action, NULL);
}

int main(int count, char **words)
{
    static const char *const names[] = { "end", "start", "heap" };
    while (place <= HEAP && (count < 2 || strcmp(words[1], names[place]) != 0))
        place++;
    if (place > HEAP) {
        printf("say end, start or heap\n");
        return 1;
    }
    if (place != HEAP)
        guard_pages();
    if (count > 2)
        try_folder(words[2]);
    else
        try_vectors();
    printf("%s: %lu sheets, %lu calls, all as expected\n", names[place], sheets, calls);
    return sheets == 0 && count < 3;
}
