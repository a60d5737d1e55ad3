/* Which functions a program has run: each calls the first of these when it is entered, and at the end the places that called are written,
 * one a line, to the file that COVER names. For tests/coverage alone. */
#include <stdint.h>
#include <stdio.h>
#include <stdlib.h>

enum { ROOM = 1 << 16 };

static void *places[ROOM];
static size_t met;

void __sanitizer_cov_trace_pc_guard(uint32_t *guard);
void __sanitizer_cov_trace_pc_guard_init(uint32_t *start, uint32_t *stop);

void __sanitizer_cov_trace_pc_guard(uint32_t *guard) {
    if (*guard == 0 || met == ROOM) return;
    *guard = 0;
    places[met++] = __builtin_return_address(0);
}

void __sanitizer_cov_trace_pc_guard_init(uint32_t *start, uint32_t *stop) {
    while (start < stop) *start++ = 1;
}

__attribute__((destructor)) static void tell(void) {
    const char *name = getenv("COVER");
    FILE *to = name ? fopen(name, "w") : NULL;
    if (!to) return;
    for (size_t k = 0; k < met; k++) fprintf(to, "%p\n", places[k]);
    fclose(to);
}
