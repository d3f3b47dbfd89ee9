/* Stands before the C library's heap (LD_PRELOAD) and refuses growths. They are numbered from 1; refused are those from `first`
   to `last`. What they are comes from the environment (REFUSE_FROM, REFUSE_TO), or from the process itself by orders: growths of
   ORDER bytes and more, which no heap has (crates/meson_memory_tests/src/refusing.rt). An order to refuse numbers anew.
   At the end it writes on the descriptor REFUSE_TELL how many growths there were, and how many it refused. */
#include <stdio.h>
#include <stdlib.h>

extern void *__libc_malloc(size_t);
extern void *__libc_calloc(size_t, size_t);
extern void *__libc_realloc(void *, size_t);

static const size_t ORDER = 1ul << 60, WAS_REFUSED = 1ul << 40;

static size_t grown, refused, first, last;
static int was_refused, tell = -1;

static size_t number(const char *name, size_t otherwise) {
    const char *text = getenv(name);
    return text ? strtoul(text, 0, 10) : otherwise;
}

__attribute__((constructor)) static void begin(void) {
    first = number("REFUSE_FROM", 0);
    last = number("REFUSE_TO", 0);
    tell = (int)number("REFUSE_TELL", -1);
    grown = 0;
}

__attribute__((destructor)) static void end(void) {
    first = 0;
    if (tell >= 0) dprintf(tell, "%zu %zu\n", grown, refused);
}

static int is_refused(void) {
    grown++;
    if (!first || grown < first || grown > last) return 0;
    refused++;
    was_refused = 1;
    return 1;
}

/* Whether one was refused: a block for yes, and no more are. Or which are from here on: twice the first, and one if all after it. */
static void *answer(size_t order) {
    if (order == WAS_REFUSED) {
        first = 0;
        return was_refused ? __libc_malloc(1) : 0;
    }
    grown = 0;
    was_refused = 0;
    first = order / 2;
    last = order % 2 ? (size_t)-1 : first;
    return 0;
}

void *malloc(size_t size) {
    if (size >= ORDER) return size <= ORDER + WAS_REFUSED ? answer(size - ORDER) : 0;
    return is_refused() ? 0 : __libc_malloc(size);
}

void *calloc(size_t count, size_t size) { return is_refused() ? 0 : __libc_calloc(count, size); }

void *realloc(void *old, size_t size) { return is_refused() ? 0 : __libc_realloc(old, size); }
