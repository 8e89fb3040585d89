/* Preloaded by tools/refused-memory.sh. Of what a program asks of the heap it refuses the request of the number REFUSE, counted
   from 1. When the program ends it writes into the file REQUESTS how many requests there were. */
#include <stddef.h>
#include <stdio.h>
#include <stdlib.h>

void *__libc_malloc(size_t size);
void *__libc_realloc(void *block, size_t size);

static unsigned long requests;
static unsigned long refused;

static int is_refused(void) {
    return ++requests == refused;
}

void *malloc(size_t size) {
    return is_refused() ? NULL : __libc_malloc(size);
}

void *realloc(void *block, size_t size) {
    return is_refused() ? NULL : __libc_realloc(block, size);
}

__attribute__((constructor)) static void begin(void) {
    const char *number = getenv("REFUSE");
    requests = 0;
    refused = number == NULL ? 0 : strtoul(number, NULL, 10);
}

__attribute__((destructor)) static void end(void) {
    const char *name = getenv("REQUESTS");
    unsigned long count = requests;
    FILE *file = name == NULL ? NULL : fopen(name, "w");
    if (file != NULL) {
        fprintf(file, "%lu\n", count);
        fclose(file);
    }
}
