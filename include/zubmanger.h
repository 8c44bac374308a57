/* The compiler from sheets of spacing formulas to register operations, for C. Link with libzubmanger.a. */
#ifndef ZUBMANGER_H
#define ZUBMANGER_H

#include <stddef.h>
#include <stdint.h>

/* A list: number 0, its operations (records counted) and its temporaries. A refusal: its number, 1 to 11, and two zeros. */
struct zubmanger_numbers {
    uint32_t number;
    uint32_t ops;
    uint32_t temps;
};

/*
 * file, file_len: the sheet's bytes. Read only.
 * work, work_len: words lent for the call, at least 16,384 of them, or the answer is refusal 1.
 *                 What they hold before does not matter; after every call all are 0.
 * out, out_len:   words lent for the list, 6 an operation, or the answer is refusal 10.
 *                 After a list the words past it are 0; after a refusal all are 0.
 *
 * Before each statement of the list stands a record of need: kind 12, then a number n. Up to the next record no operation writes
 * a scratch register but 0 to n - 1; what a call itself spoils is not counted.
 *
 * The lengths count bytes of file and 32-bit words of work and out. The three must not overlap, and none may be a
 * null pointer, even where its length is 0. Nothing is kept between calls.
 */
struct zubmanger_numbers zubmanger_compile(const uint8_t *file, size_t file_len, uint32_t *work, size_t work_len,
                                           uint32_t *out, size_t out_len);

#endif
