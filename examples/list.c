/*
 * Prints the nodes of a record that a query picks out, a line for each: first byte, byte after the
 * last, and the bytes between.
 *
 *   cc -I include examples/list.c crates/woodcrock_c/out/libwoodcrock_c.a -o list
 *   ./list '$..lot' < record.json
 */
#include "woodcrock.h"

#include <stdio.h>
#include <stdlib.h>
#include <string.h>

/* Room for one byte more than is taken, so that a record that is too long is refused as such. */
enum { ROOM = WOODCROCK_MAX_RECORD + 1 };

static const char *const grounds[] = {
    "no refusal",
    "the query is too long",
    "the query is not in the grammar",
    "the query has too many steps",
    "the record is too long",
    "the record is not a JSON text",
    "the record is nested too deep",
    "the list is full",
    "no value begins there",
    "a name on the way has half of a surrogate pair",
    "the path is longer than the buffer",
};

static void *or_exit(void *memory)
{
    if (memory == NULL) {
        fputs("no memory\n", stderr);
        exit(EXIT_FAILURE);
    }
    return memory;
}

/* Lists into memory of its own: a short list first, and a longer one as long as nodes are left over. */
static woodcrock_answer list_all(const char *query, const uint8_t *record, size_t length,
                                 uint32_t **list)
{
    size_t numbers = 128;
    for (;;) {
        *list = or_exit(malloc(numbers * sizeof **list));
        woodcrock_answer answer = woodcrock_list_jumping((const uint8_t *)query, strlen(query),
                                                         record, length, *list, numbers);
        if (answer.ground != WOODCROCK_LIST_FULL) {
            return answer;
        }
        free(*list);
        numbers *= 8;
    }
}

int main(int argc, char **argv)
{
    if (argc != 2) {
        fputs("usage: list QUERY < RECORD\n", stderr);
        return 2;
    }
    uint8_t *record = or_exit(malloc(ROOM));
    size_t length = fread(record, 1, ROOM, stdin);
    if (ferror(stdin)) {
        perror("standard input");
        return EXIT_FAILURE;
    }
    uint32_t *list;
    woodcrock_answer answer = list_all(argv[1], record, length, &list);
    if (answer.ground != WOODCROCK_NO_GROUND) {
        fprintf(stderr, "refused: %s (ground %u, place %u)\n", grounds[answer.ground],
                (unsigned)answer.ground, (unsigned)answer.place);
        return 10 + (int)answer.ground;
    }
    for (uint32_t pair = 0; pair < answer.pairs; pair += 1) {
        uint32_t first = list[2 * pair], end = list[2 * pair + 1];
        printf("%u %u ", (unsigned)first, (unsigned)end);
        fwrite(record + first, 1, end - first, stdout);
        putchar('\n');
    }
    free(list);
    free(record);
    return fflush(stdout) == 0 ? EXIT_SUCCESS : EXIT_FAILURE;
}
