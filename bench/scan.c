/* Counts the line feeds of standard input many times over, byte by byte: the least that a check of every byte costs. */
#include <stdio.h>
#include <stdlib.h>

static unsigned char memory[32768];

/* Kept out of line, so that each turn of the caller scans anew. */
__attribute__((noinline)) static unsigned long feeds(const unsigned char *text, size_t len)
{
    unsigned long count = 0;
    for (size_t i = 0; i < len; i++)
        if (text[i] == '\n')
            count++;
    return count;
}

int main(int argc, char **argv)
{
    if (argc != 2)
        return 2;
    unsigned long turns = strtoul(argv[1], NULL, 10);
    size_t len = fread(memory, 1, sizeof memory, stdin);
    unsigned long sum = 0;
    for (unsigned long i = 0; i < turns; i++) {
        __asm__ volatile("" ::: "memory"); /* the bytes may have changed, for all that the compiler knows */
        sum += feeds(memory, len);
    }
    printf("feeds %lu in %lu\n", sum, turns);
    return 0;
}
