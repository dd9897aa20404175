// Loaded before a program (LD_PRELOAD), it refuses the allocation of the number in REFUSE, counted from 1, and writes
// how many there were into the file named by COUNTED. It counts malloc and realloc: the program calls no other.
#include <stdio.h>
#include <stdlib.h>

void *__libc_malloc(size_t size);
void *__libc_realloc(void *block, size_t size);

static long seen, refused = -1;

static int is_refused(void) {
    if (refused < 0) {
        const char *number = getenv("REFUSE");
        refused = number ? atol(number) : 0;
    }
    return ++seen == refused;
}

void *malloc(size_t size) { return is_refused() ? NULL : __libc_malloc(size); }

void *realloc(void *block, size_t size) { return is_refused() ? NULL : __libc_realloc(block, size); }

__attribute__((destructor)) static void tell(void) {
    const char *name = getenv("COUNTED");
    long all = seen;
    FILE *file = name ? fopen(name, "w") : NULL;
    if (!file) return;
    fprintf(file, "%ld\n", all);
    fclose(file);
}
