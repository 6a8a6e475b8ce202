/*
 * Holds the numbers of include/reflectors.h to what the library answers, each
 * refusal once, and the buffer to what it was. Read as C and as C++.
 */
#include <stdio.h>
#include <string.h>

#include "reflectors.h"

#define R0 "\1\0\1" /* a reflector of cluster 0 */
#define R1 "\1\0\0" /* a client of cluster 0 */
#define LINK "\2\0\1\0\1"

struct asked {
    const char *table;
    size_t length;
    uint64_t injected;
    size_t room;
    unsigned number;
    uint64_t place;
};

#define TABLE(text) text, sizeof(text) - 1

static const struct asked all[] = {
    {TABLE(R0 R1 LINK), 0, 32, REFLECTORS_DONE, 0},
    {TABLE("\7"), 0, 32, REFLECTORS_UNKNOWN_KIND, 0},
    {TABLE(R0 "\1\0"), 0, 32, REFLECTORS_CUT_SHORT, 3},
    {TABLE(R0 R1 LINK R1), 0, 32, REFLECTORS_KIND_FALLS, 11},
    {TABLE(R0 R0 R0 R0 R0 R0 R0 R0 R0 R0 R0 R0 R0 R0 R0 R0 R0 R0 R0 R0 R0 R0 R0 R0 R0 R0 R0 R0 R0 R0 R0 R0 R0), 0, 32,
     REFLECTORS_TOO_MANY, 96},
    {TABLE(R0 R1 "\2\0\1\0\0"), 0, 32, REFLECTORS_OUT_OF_RANGE, 6},
    {TABLE(R0 R1 LINK "\2\1\0\0\1"), 0, 32, REFLECTORS_BAD_PAIR, 11},
    {TABLE(R0 R1 LINK "\3\0\1"), 0, 32, REFLECTORS_BAD_SESSION, 11},
    {TABLE(""), 0, 32, REFLECTORS_NO_ROUTER, 0},
    {TABLE(R1), 0, 32, REFLECTORS_NO_REFLECTOR, 0},
    {TABLE(R0 R1), 0, 32, REFLECTORS_NOT_JOINED, 3},
    {TABLE(R0), 6, 31, REFLECTORS_UNDECLARED_PATH, 1},
    {TABLE(R0), 0, REFLECTORS_LEAST_BUFFER - 1, REFLECTORS_SHORT_BUFFER, REFLECTORS_LEAST_BUFFER},
};

int main(void)
{
    int failed = 0;
    for (size_t i = 0; i < sizeof all / sizeof all[0]; i++) {
        const struct asked *asked = &all[i];
        uint8_t buffer[64], before[64];
        memset(buffer, 77, sizeof buffer);
        memset(before, 77, sizeof before);
        const uint8_t *table = (const uint8_t *)asked->table;
        uint64_t answer = reflectors_direct(table, asked->length, asked->injected, buffer, asked->room);
        if (asked->number == REFLECTORS_DONE)
            memset(before, REFLECTORS_NO_PATH, reflectors_routers(table, asked->length));
        if (reflectors_number(answer) != asked->number || reflectors_place(answer) != asked->place ||
            memcmp(buffer, before, sizeof buffer) != 0) {
            printf("call %u: answered %u at %u\n", (unsigned)i, reflectors_number(answer),
                   (unsigned)reflectors_place(answer));
            failed = 1;
        }
    }
    if (32 * 3 + REFLECTORS_MOST_LINKS * 5 + REFLECTORS_MOST_SESSIONS * 3 + REFLECTORS_MOST_PATHS * 21 !=
            REFLECTORS_LONGEST_TABLE || REFLECTORS_MOST_ROUTERS != 32) {
        printf("the limits do not make the longest table\n");
        failed = 1;
    }
    return failed;
}
