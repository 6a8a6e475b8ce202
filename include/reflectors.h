/*
 * The reflector library, for a host in C or C++.
 *
 * One call tells which path each router of a table takes, where some of the
 * table's exit paths are injected and every router advertises what the
 * five-stage rule keeps of them:
 *
 *     uint8_t buffer[REFLECTORS_LEAST_BUFFER];
 *     uint64_t answer = reflectors_direct(table, length, injected, buffer, sizeof buffer);
 *     if (reflectors_number(answer) != REFLECTORS_DONE)
 *         ... refused, at reflectors_place(answer) ...
 *     for (size_t router = 0; router < reflectors_routers(table, length); router++)
 *         ... buffer[router] is a path or REFLECTORS_NO_PATH ...
 *
 * It does not tell where a router's packets leave: that may be at an exit of
 * another router, which they come to on the way.
 *
 * Link with libreflectors_c.a. It needs a processor of the level x86-64-v2 and
 * 48 KiB of stack.
 */
#ifndef REFLECTORS_H
#define REFLECTORS_H

#include <stddef.h>
#include <stdint.h>

#ifdef __cplusplus
extern "C" {
#endif

/* The most of each kind that a table may hold. */
#define REFLECTORS_MOST_ROUTERS 32
#define REFLECTORS_MOST_LINKS 128
#define REFLECTORS_MOST_SESSIONS 64
#define REFLECTORS_MOST_PATHS 64

/* The longest table that is accepted, in bytes. */
#define REFLECTORS_LONGEST_TABLE 2272

/* The least length of the buffer for the answer, in bytes. */
#define REFLECTORS_LEAST_BUFFER 32

/* The byte of a router that takes no path. */
#define REFLECTORS_NO_PATH 255

/* In a table the routers come first: this kind, and so many bytes each. */
#define REFLECTORS_ROUTER_KIND 1
#define REFLECTORS_ROUTER_LENGTH 3

/*
 * The numbers of the answers. The place of 1 to 10 is the offset in the table
 * of the kind byte of the record at fault. Numbers between 11 and 16 are of
 * calls that a host in C does not make.
 */
enum {
    REFLECTORS_DONE = 0,             /* not refused */

    /* Records. */
    REFLECTORS_UNKNOWN_KIND = 1,     /* the kind is unknown */
    REFLECTORS_CUT_SHORT = 2,        /* the bytes end inside the record */
    REFLECTORS_KIND_FALLS = 3,       /* the kind is lower than that of the record before */

    /* The table, record by record. */
    REFLECTORS_TOO_MANY = 4,         /* the record is one more than the most of its kind */
    REFLECTORS_OUT_OF_RANGE = 5,     /* a field is out of range or names a router that no earlier record declares */
    REFLECTORS_BAD_PAIR = 6,         /* a link or a session joins a router to itself, or a pair again */
    REFLECTORS_BAD_SESSION = 7,      /* a session joins two routers that are not both clients of the same cluster */

    /* The routers and links as a whole. */
    REFLECTORS_NO_ROUTER = 8,        /* there is no router; the place is 0 */
    REFLECTORS_NO_REFLECTOR = 9,     /* a client's cluster has no reflector: the lowest such client */
    REFLECTORS_NOT_JOINED = 10,      /* no chain of links leads from router 0 to a router: the lowest such router */

    /* The call. */
    REFLECTORS_UNDECLARED_PATH = 11, /* an injected path is not declared; the place is the lowest such path */
    REFLECTORS_SHORT_BUFFER = 16     /* the buffer is too short; the place is the length that is needed */
};

/* The number of an answer: REFLECTORS_DONE, or why the call was refused. */
static inline unsigned reflectors_number(uint64_t answer)
{
    return (unsigned)(answer & 255);
}

/* The place of a refusal; 0 where there is none. */
static inline uint64_t reflectors_place(uint64_t answer)
{
    return answer >> 8;
}

/* How many routers an accepted table declares, which is how many bytes of the buffer were written. */
static inline size_t reflectors_routers(const uint8_t *table, size_t table_length)
{
    size_t count = 0;
    while (count * REFLECTORS_ROUTER_LENGTH < table_length &&
           table[count * REFLECTORS_ROUTER_LENGTH] == REFLECTORS_ROUTER_KIND)
        count++;
    return count;
}

/*
 * Takes the paths of the word as injected (bit n for path n), and writes one
 * byte for each router of the table, in the order of their numbers: the path
 * that it takes, or REFLECTORS_NO_PATH. That is every router if no path is
 * injected, and none otherwise. The bytes behind those stay as they were.
 *
 * Answers 0, or number + 256 * place of the refusal with the smallest number.
 * A refused call writes nothing.
 *
 * Neither pointer may be null, even where the length is 0, and the buffer may
 * not overlap the table. The call keeps neither pointer, allocates nothing and
 * has no state: threads may make it at once, each with a buffer of its own.
 */
uint64_t reflectors_direct(const uint8_t *table, size_t table_length, uint64_t injected,
                           uint8_t *buffer, size_t buffer_length);

#ifdef __cplusplus
}
#endif

#endif
