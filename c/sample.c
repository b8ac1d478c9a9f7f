/* The sample of the scope paper through the library, and the other operations once each. It must print c/sample.out:
 *   rust/library
 *   gcc -std=c11 -Wall -Wextra -Werror -Iinclude c/sample.c target/staticlib/libexports.a -o target/sample
 *   target/sample | diff - c/sample.out
 */
#include "plots.h"

#include <inttypes.h>
#include <stdio.h>

enum { STORE_WORDS = 68, OUT_WORDS = 9, REPLY_WORDS = 4 };

/* The word past the end of each slice. */
#define GUARD 77

static uint32_t store[STORE_WORDS + 1];
static uint32_t out[OUT_WORDS + 1];
static uint64_t reply[REPLY_WORDS + 1];

/* Prints a call's number and its n values. */
static void show(const char *name, uint32_t number, int n)
{
    printf("%-8s %2" PRIu32, name, number);
    for (int i = 0; i < n; i++)
        printf(" %10" PRIu64, reply[i]);
    printf("\n");
}

static void enter(uint32_t key, uint32_t price, uint32_t lease, uint32_t last)
{
    show("enter", plots_enter(store, STORE_WORDS, key, price, lease, last, reply, REPLY_WORDS), 4);
}

/* Lists all records, with room for so many words. */
static void range(size_t words)
{
    uint32_t number = plots_range(store, STORE_WORDS, 1, UINT32_MAX, out, words, reply, REPLY_WORDS);
    show("range", number, 2);
    for (uint64_t i = 0; number == 0 && i < reply[0]; i++)
        printf("%22" PRIu32 " %10" PRIu32 " %10" PRIu32 " %10" PRIu32 "\n", out[4 * i], out[4 * i + 1], out[4 * i + 2], out[4 * i + 3]);
}

int main(void)
{
    store[STORE_WORDS] = out[OUT_WORDS] = GUARD;
    reply[REPLY_WORDS] = GUARD;

    show("set up", plots_set_up(store, STORE_WORDS, 1, 1, 4, 4, reply, REPLY_WORDS), 1);
    enter(2147483648, 1250000, 36525, 66000);
    enter(3221225472, 90000, 0, 0);
    enter(1073741824, 60000, 9131, 45999);
    show("find", plots_find(store, STORE_WORDS, 3221225472, reply, REPLY_WORDS), 4);
    show("summary", plots_summary(store, STORE_WORDS, 1, UINT32_MAX, 46000, reply, REPLY_WORDS), 3);

    show("next", plots_next(store, STORE_WORDS, 0, reply, REPLY_WORDS), 4);
    show("next", plots_next(store, STORE_WORDS, UINT32_MAX, reply, REPLY_WORDS), 4);
    range(OUT_WORDS);
    range(3);
    show("balance", plots_balance(1250000, 36525, 66000, 46000, reply, REPLY_WORDS), 1);
    show("key of", plots_key_of(255, 4095, 255, 15, reply, REPLY_WORDS), 1);
    show("label of", plots_label_of(16777409, reply, REPLY_WORDS), 4);
    show("convert", plots_convert(16777228, reply, REPLY_WORDS), 1);

    /* refusals: zeros */
    enter(2147483648, 1250000, 36525, 66000);
    enter(1, 2, 36526, 3);
    show("set up", plots_set_up(store, STORE_WORDS - 1, 1, 1, 4, 4, reply, REPLY_WORDS), 1);
    show("key of", plots_key_of(0, 0, 0, 0, reply, REPLY_WORDS), 1);
    show("convert", plots_convert(16777472, reply, REPLY_WORDS), 1);

    /* a reply of two words takes two values, and the words after it stay */
    reply[2] = reply[3] = GUARD;
    show("find", plots_find(store, STORE_WORDS, 2147483648, reply, 2), 4);
    if (store[STORE_WORDS] != GUARD || out[OUT_WORDS] != GUARD || reply[REPLY_WORDS] != GUARD)
        printf("a word past the end was written\n");
    return 0;
}
