/* Stands before the C library of a program that a test runs. As the program writes the line of standard output that begins with the
   text MARK, the file MEMORY gets what stands in its memory, but for pages of zeros. */

#define _GNU_SOURCE
#include <dlfcn.h>
#include <stdio.h>
#include <stdlib.h>
#include <string.h>
#include <sys/uio.h>
#include <unistd.h>

#define PAGE 4096

/* A larger part of the memory is set apart by those who look for faults in it, and holds nothing that the program made. */
#define MOST (1UL << 30)

static char page[PAGE];

/* Adds a page, which is read by the system: what stands before the C library for other ends doesn't see it. */
static void tell_page(unsigned long at, FILE *told)
{
    struct iovec from = {(void *)at, PAGE}, to = {page, PAGE};
    if (process_vm_readv(getpid(), &to, 1, &from, 1, 0) != PAGE)
        return;
    for (int byte = 0; byte < PAGE; byte++) {
        if (page[byte] != 0) {
            fwrite(page, 1, PAGE, told);
            return;
        }
    }
}

static void tell(FILE *told)
{
    char line[4096], rights[8];
    unsigned long at, end;
    FILE *maps = fopen("/proc/self/maps", "r");
    while (maps != NULL && fgets(line, sizeof line, maps)) {
        if (sscanf(line, "%lx-%lx %7s", &at, &end, rights) != 3 || rights[0] != 'r' || rights[1] != 'w' || end - at > MOST)
            continue;
        for (; at < end; at += PAGE)
            tell_page(at, told);
    }
    if (maps != NULL)
        fclose(maps);
}

ssize_t write(int file, const void *bytes, size_t size)
{
    const char *mark = getenv("MARK"), *path = getenv("MEMORY");
    if (file == STDOUT_FILENO && mark && path && size >= strlen(mark) && strncmp(bytes, mark, strlen(mark)) == 0) {
        FILE *told = fopen(path, "w");
        if (told != NULL) {
            tell(told);
            fclose(told);
        }
    }
    return ((__typeof__(&write))dlsym(RTLD_NEXT, "write"))(file, bytes, size);
}
