/* What gcc calls by itself, where no C library has it. */

#include <stddef.h>

__attribute__((weak, optimize("no-tree-loop-distribute-patterns"))) void *memcpy(void *to, const void *from, size_t count)
{
    char *left = to;
    const char *right = from;

    while (count--)
        *left++ = *right++;
    return to;
}

__attribute__((weak, optimize("no-tree-loop-distribute-patterns"))) void *memmove(void *to, const void *from, size_t count)
{
    char *left = to;
    const char *right = from;

    if (left < right)
        return memcpy(to, from, count);
    while (count--)
        left[count] = right[count];
    return to;
}

__attribute__((weak, optimize("no-tree-loop-distribute-patterns"))) void *memset(void *to, int byte, size_t count)
{
    char *left = to;

    while (count--)
        *left++ = (char)byte;
    return to;
}

__attribute__((weak, optimize("no-tree-loop-distribute-patterns"))) int memcmp(const void *one, const void *other, size_t count)
{
    const unsigned char *left = one, *right = other;

    for (; count; count--, left++, right++)
        if (*left != *right)
            return *left - *right;
    return 0;
}

__attribute__((weak, noreturn)) void abort(void)
{
    __builtin_trap();
}
