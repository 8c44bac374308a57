/* Measures the stack that a call uses: each sheet is compiled on a painted stack of its own. Reads lines 'HEX'. */
#define _GNU_SOURCE
#include "check.h"

#include <pthread.h>
#include <stdlib.h>

enum { STACK = 1 << 20, PAINT = 0xa5 };

static _Alignas(4096) uint8_t stack[STACK];
static uint8_t file[FILE_MAX + 1];
static uint32_t work[WORDS], out[WORDS];
static struct lent lent = { file, 0, work, WORDS, out, WORDS };

static void *nothing(void *unused)
{
    return unused;
}

static void *call(void *unused)
{
    compile(lent);
    return unused;
}

/* The bytes of the stack that are painted no longer after a thread ran on it. */
static size_t used_by(void *(*body)(void *))
{
    pthread_attr_t attributes;
    pthread_t thread;
    memset(stack, PAINT, sizeof stack);
    if (pthread_attr_init(&attributes) || pthread_attr_setstack(&attributes, stack, sizeof stack)
        || pthread_create(&thread, &attributes, body, NULL) || pthread_join(thread, NULL))
        exit(1);
    size_t low = 0;
    while (low < sizeof stack && stack[low] == PAINT)
        low++;
    return sizeof stack - low;
}

int main(void)
{
    static char hex[2 * sizeof file + 1];
    size_t start = used_by(nothing), most = 0;
    unsigned long sheets = 0;
    while (scanf("%32770s", hex) == 1) {
        lent.file_len = bytes_of(hex, file);
        size_t used = used_by(call) - start;
        most = used > most ? used : most;
        sheets++;
    }
    printf("%lu sheets, at most %zu bytes of stack a call\n", sheets, most);
    return sheets == 0 || most == 0;
}
