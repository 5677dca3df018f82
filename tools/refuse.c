/* Makes one allocation of a program fail: the one whose number, from 1, the variable REFUSE holds.
   LD_PRELOAD loads it before the C library, from which the programs that `rt` builds allocate all
   their memory. It reports that by a line that no program of this repository writes. */

#include <stddef.h>

void *__libc_malloc(size_t octets);
void *__libc_realloc(void *old, size_t octets);
char *getenv(const char *name);
long write(int file, const void *octets, size_t count);

static int is_refused(void)
{
    static unsigned long long number, wanted;
    static const char said[] = "refuse: this allocation is refused\n";
    const char *digits = number == 0 ? getenv("REFUSE") : NULL;
    for (; digits && '0' <= *digits && *digits <= '9'; digits++)
        wanted = wanted * 10 + (*digits - '0');
    return ++number == wanted && write(2, said, sizeof said - 1) > 0;
}

void *malloc(size_t octets)
{
    return is_refused() ? NULL : __libc_malloc(octets);
}

void *realloc(void *old, size_t octets)
{
    return is_refused() ? NULL : __libc_realloc(old, octets);
}
