/*
 * Makes the direct call, as the first thing that needs the C library's memcpy,
 * with exactly so many bytes of stack left as its argument says, on the longest
 * table. Below those bytes no memory can be touched. Prints how many were used.
 */
#define _GNU_SOURCE
#include <stdint.h>
#include <stdio.h>
#include <stdlib.h>
#include <sys/mman.h>

#include "reflectors.h"

/* Deeper than any frame is large. */
#define GUARD ((size_t)1 << 20)
#define UNTOUCHED 0xa5

static uint8_t table[REFLECTORS_LONGEST_TABLE], buffer[REFLECTORS_LEAST_BUFFER];
static size_t length;

static void put(unsigned byte)
{
    table[length++] = (uint8_t)byte;
}

/* A cluster of one reflector and clients; links in a line, and then more, the
 * metrics as large as can be; sessions of two clients; paths all alike. */
static void fill_table(void)
{
    for (unsigned router = 0; router < REFLECTORS_MOST_ROUTERS; router++) {
        put(1), put(0), put(router == 0);
    }
    unsigned links = 0;
    for (unsigned apart = 1; links < REFLECTORS_MOST_LINKS; apart++) {
        for (unsigned a = 0; a + apart < REFLECTORS_MOST_ROUTERS && links < REFLECTORS_MOST_LINKS; a++, links++) {
            put(2), put(a), put(a + apart), put(255), put(255);
        }
    }
    unsigned sessions = 0;
    for (unsigned apart = 1; sessions < REFLECTORS_MOST_SESSIONS; apart++) {
        for (unsigned a = 1; a + apart < REFLECTORS_MOST_ROUTERS && sessions < REFLECTORS_MOST_SESSIONS; a++, sessions++) {
            put(3), put(a), put(a + apart);
        }
    }
    for (unsigned path = 0; path < REFLECTORS_MOST_PATHS; path++) {
        put(4), put(path % REFLECTORS_MOST_ROUTERS);
        for (unsigned field = 0; field < 19; field++) {
            put(1);
        }
    }
}

/* The call with the stack pointer at this address. */
static uint64_t call_at(uint8_t *top)
{
    uint64_t answer;
    const uint8_t *first = table;
    size_t second = length;
    uint64_t third = ~(uint64_t)0;
    uint8_t *fourth = buffer;
    register size_t fifth __asm__("r8") = sizeof buffer;
    uint64_t (*call)(const uint8_t *, size_t, uint64_t, uint8_t *, size_t) = reflectors_direct;
    __asm__ volatile("movq %%rsp, %%rbx\n\t"
                     "movq %[top], %%rsp\n\t"
                     "callq *%[call]\n\t"
                     "movq %%rbx, %%rsp"
                     : "=&a"(answer), "+D"(first), "+S"(second), "+d"(third), "+c"(fourth), "+r"(fifth), [call] "+r"(call)
                     : [top] "r"(top)
                     : "rbx", "r9", "r10", "memory", "cc", "xmm0", "xmm1", "xmm2", "xmm3", "xmm4", "xmm5", "xmm6", "xmm7",
                       "xmm8", "xmm9", "xmm10", "xmm11", "xmm12", "xmm13", "xmm14", "xmm15");
    return answer;
}

int main(int count, char **words)
{
    size_t left = count == 2 ? strtoul(words[1], NULL, 10) : 0;
    if (left == 0 || left % 4096 != 0)
        return 2;
    uint8_t *lowest = mmap(NULL, GUARD + left, PROT_NONE, MAP_PRIVATE | MAP_ANONYMOUS, -1, 0);
    if (lowest == MAP_FAILED || mprotect(lowest + GUARD, left, PROT_READ | PROT_WRITE) != 0)
        return 2;
    volatile uint8_t *stack = lowest + GUARD;
    for (size_t i = 0; i < left; i++) {
        stack[i] = UNTOUCHED;
    }
    fill_table();
    uint64_t answer = call_at(lowest + GUARD + left);
    if (length != sizeof table || answer != REFLECTORS_DONE || buffer[31] >= REFLECTORS_MOST_PATHS)
        return 1;
    size_t untouched = 0;
    while (stack[untouched] == UNTOUCHED) {
        untouched++;
    }
    printf("%zu of %zu bytes\n", left - untouched, left);
    return 0;
}
