/* Stands before the C library of a program that `refuse.py` runs: counts the growths of its memory, which are its calls of malloc and
   realloc, and refuses the one whose number REFUSE names. Where COUNT names a file, it gets how many there were. */

#define _GNU_SOURCE
#include <errno.h>
#include <stdio.h>
#include <stdlib.h>

void *__libc_malloc(size_t size);
void *__libc_realloc(void *held, size_t size);

static unsigned long refused, growths;
static int is_counting;

__attribute__((constructor)) static void begin(void)
{
    const char *number = getenv("REFUSE");
    refused = number ? strtoul(number, NULL, 10) : 0;
    is_counting = 1;
}

__attribute__((destructor)) static void end(void)
{
    const char *file = getenv("COUNT");
    is_counting = 0;
    FILE *told = file ? fopen(file, "w") : NULL;
    if (told) {
        fprintf(told, "%lu\n", growths);
        fclose(told);
    }
}

static int is_refused(void)
{
    if (!is_counting || ++growths != refused)
        return 0;
    errno = ENOMEM;
    return 1;
}

void *malloc(size_t size)
{
    return is_refused() ? NULL : __libc_malloc(size);
}

void *realloc(void *held, size_t size)
{
    return is_refused() ? NULL : __libc_realloc(held, size);
}
