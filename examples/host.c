/*
 * A host in C: which path every router of a table would take.
 *
 *     host TABLE [PATH ...]
 *
 * reads the file TABLE, takes the paths of these numbers as injected, and
 * prints a line for each router, or why the call is refused. It ends with
 * status 0, with 1 for a refusal, and with 2 if it cannot ask.
 */
#include <errno.h>
#include <inttypes.h>
#include <stdio.h>
#include <stdlib.h>
#include <string.h>

#include "reflectors.h"

enum { REFUSED = 1, NOT_ASKED = 2 };

/* Reads a whole file into memory of its own; null, and errno, if it cannot. */
static uint8_t *read_file(const char *name, size_t *length)
{
    FILE *file = fopen(name, "rb");
    if (file == NULL)
        return NULL;
    size_t room = REFLECTORS_LONGEST_TABLE + 1;
    uint8_t *bytes = malloc(room);
    int error = bytes == NULL ? ENOMEM : 0;
    *length = 0;
    while (error == 0) {
        errno = 0;
        *length += fread(bytes + *length, 1, room - *length, file);
        if (ferror(file))
            error = errno != 0 ? errno : EIO;
        if (*length < room)
            break;
        uint8_t *more = room > SIZE_MAX / 2 ? NULL : realloc(bytes, 2 * room);
        if (more == NULL) {
            error = ENOMEM;
            break;
        }
        bytes = more;
        room *= 2;
    }
    fclose(file);
    if (error == 0)
        return bytes;
    free(bytes);
    errno = error;
    return NULL;
}

/* Adds the path of this number, which is written in digits alone, to the injected ones. */
static int inject(const char *number, uint64_t *injected)
{
    unsigned path = 0;
    for (const char *digit = number; *digit != '\0'; digit++) {
        if (*digit < '0' || *digit > '9')
            return 0;
        path = 10 * path + (unsigned)(*digit - '0');
        if (path >= REFLECTORS_MOST_PATHS)
            return 0;
    }
    *injected |= UINT64_C(1) << path;
    return *number != '\0';
}

/* What a refusal of the table says of the record at fault. */
static const char *words(unsigned number)
{
    switch (number) {
    case REFLECTORS_UNKNOWN_KIND:
        return "the kind of the record is unknown";
    case REFLECTORS_CUT_SHORT:
        return "the bytes end inside the record";
    case REFLECTORS_KIND_FALLS:
        return "the kind of the record is lower than that of the one before";
    case REFLECTORS_TOO_MANY:
        return "the record is one more than the most of its kind";
    case REFLECTORS_OUT_OF_RANGE:
        return "a field of the record is out of range or names a router that no earlier record declares";
    case REFLECTORS_BAD_PAIR:
        return "the record joins a router to itself, or two routers that an earlier one of its kind joins";
    case REFLECTORS_BAD_SESSION:
        return "the session joins two routers that are not both clients of the same cluster";
    case REFLECTORS_NO_ROUTER:
        return "there is no router";
    case REFLECTORS_NO_REFLECTOR:
        return "the cluster of this client has no reflector";
    case REFLECTORS_NOT_JOINED:
        return "no chain of links joins this router to router 0";
    default:
        return "the refusal is unknown";
    }
}

static void print_refusal(unsigned number, uint64_t place)
{
    switch (number) {
    case REFLECTORS_UNDECLARED_PATH:
        printf("refused with %u: path %" PRIu64 " is not declared\n", number, place);
        break;
    case REFLECTORS_SHORT_BUFFER:
        printf("refused with %u: the buffer is shorter than %" PRIu64 " bytes\n", number, place);
        break;
    default:
        printf("refused with %u at byte %" PRIu64 ": %s\n", number, place, words(number));
    }
}

static void print_routers(const uint8_t *buffer, size_t count)
{
    for (size_t router = 0; router < count; router++) {
        if (buffer[router] == REFLECTORS_NO_PATH)
            printf("router %zu has no path\n", router);
        else
            printf("router %zu takes path %d\n", router, buffer[router]);
    }
}

int main(int argc, char **argv)
{
    if (argc < 2) {
        fprintf(stderr, "usage: host TABLE [PATH ...]\n");
        return NOT_ASKED;
    }
    uint64_t injected = 0;
    for (int i = 2; i < argc; i++) {
        if (!inject(argv[i], &injected)) {
            fprintf(stderr, "host: %s is no number of a path, which is 0 to %d\n", argv[i], REFLECTORS_MOST_PATHS - 1);
            return NOT_ASKED;
        }
    }
    size_t length;
    uint8_t *table = read_file(argv[1], &length);
    if (table == NULL) {
        fprintf(stderr, "host: %s: %s\n", argv[1], strerror(errno));
        return NOT_ASKED;
    }

    uint8_t buffer[REFLECTORS_LEAST_BUFFER];
    uint64_t answer = reflectors_direct(table, length, injected, buffer, sizeof buffer);
    int status = 0;
    if (reflectors_number(answer) == REFLECTORS_DONE) {
        print_routers(buffer, reflectors_routers(table, length));
    } else {
        print_refusal(reflectors_number(answer), reflectors_place(answer));
        status = REFUSED;
    }
    free(table);
    if (fflush(stdout) != 0) {
        perror("host: standard output");
        return NOT_ASKED;
    }
    return status;
}
