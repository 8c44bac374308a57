/* What the drivers in C share: what must hold after every call, and the answer that other lent memory must give. */
#ifndef CHECK_H
#define CHECK_H

#include "../include/zubmanger.h"

#include <stdio.h>
#include <string.h>

enum { WORDS = 16384, FILE_MAX = 16384, NO_WORK = 1, NO_ROOM = 10, LAST_NUMBER = 11 };
enum { SAVE = 3, SWAP = 5, CALL = 11, NEED = 12, TEMP = 254, RET = 255 };

/* The arguments of one call. */
struct lent {
    const uint8_t *file;
    size_t file_len;
    uint32_t *work;
    size_t work_len;
    uint32_t *out;
    size_t out_len;
};

static inline struct zubmanger_numbers compile(struct lent l)
{
    return zubmanger_compile(l.file, l.file_len, l.work, l.work_len, l.out, l.out_len);
}

static inline int all(const uint32_t *words, size_t from, size_t to, uint32_t value)
{
    uint32_t other = 0;
    for (size_t i = from; i < to; i++)
        other |= words[i] ^ value;
    return other == 0;
}

static inline int same(struct zubmanger_numbers a, struct zubmanger_numbers b)
{
    return a.number == b.number && a.ops == b.ops && a.temps == b.temps;
}

static inline int below(uint32_t reg, uint32_t need)
{
    return reg < need || reg == TEMP || reg == RET;
}

/* Whether each operation stands under a record of need and writes no scratch register at or above its number. */
static inline int needs_hold(const uint32_t *op, uint32_t ops, uint32_t scratch)
{
    uint32_t need = 0;
    for (; ops > 0; ops--, op += 6) {
        if (op[0] == NEED)
            need = op[1];
        int writes = op[0] != SAVE && op[0] != CALL && op[0] != NEED;
        if (need < 1 || need > scratch || (writes && !below(op[2], need)) || (op[0] == SWAP && !below(op[3], need)))
            return 0;
    }
    return 1;
}

/* What is wrong after a call, whatever the sheet and the lent memory, or a null pointer. */
static inline const char *wrong_after(struct lent l, struct zubmanger_numbers r)
{
    size_t list = 6 * (size_t)r.ops;
    if (r.number > LAST_NUMBER)
        return "no such refusal";
    if (r.number > 0 && (r.ops > 0 || r.temps > 0))
        return "a refusal has counts";
    if (list > l.out_len)
        return "a list longer than its room";
    if (!all(l.work, 0, l.work_len, 0))
        return "work is not zero";
    if (!all(l.out, list, l.out_len, 0))
        return r.number > 0 ? "a refusal leaves words" : "not zero past the list";
    if (r.number == 0 && !needs_hold(l.out, r.ops, l.file[0]))
        return "a register that no record has";
    return NULL;
}

/* The answer in other lent memory, from the answer in 16,384 words of each: check 1 comes first, check 10 last. */
static inline struct zubmanger_numbers answer_in(struct zubmanger_numbers full, size_t work_len, size_t out_len)
{
    if (work_len < WORDS)
        return (struct zubmanger_numbers){ NO_WORK, 0, 0 };
    if (out_len < 6 * (size_t)full.ops)
        return (struct zubmanger_numbers){ NO_ROOM, 0, 0 };
    return full;
}

/* A sheet's bytes from two digits each; '-' is the empty sheet. */
static inline size_t bytes_of(const char *hex, uint8_t *bytes)
{
    size_t len = strlen(hex) / 2;
    for (size_t i = 0; i < len; i++) {
        unsigned byte = 0;
        sscanf((char[]){ hex[2 * i], hex[2 * i + 1], 0 }, "%x", &byte);
        bytes[i] = (uint8_t)byte;
    }
    return len;
}

#endif
