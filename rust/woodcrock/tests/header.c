/* Prints limits and the layout of the structs of the header, and answers of the calls. */
#include "woodcrock.h"

#include <inttypes.h>
#include <stdio.h>

/* The alignment of a type: where it stands after one byte. */
#define ALIGNMENT(type) offsetof(struct { char byte; type after; }, after)

static void print_limits(void)
{
    printf("%d %d %d\n", WOODCROCK_MAX_QUERY, WOODCROCK_MAX_RECORD, WOODCROCK_MAX_FRAMES);
}

static void print_layouts(void)
{
    printf("%zu %zu\n", sizeof(woodcrock_answer), ALIGNMENT(woodcrock_answer));
    printf("%zu %zu\n", offsetof(woodcrock_answer, ground), offsetof(woodcrock_answer, place));
    printf("%zu %zu\n", offsetof(woodcrock_answer, pairs), offsetof(woodcrock_answer, peak));
    printf("%zu %zu\n", sizeof(woodcrock_value), ALIGNMENT(woodcrock_value));
    printf("%zu %zu %zu\n", offsetof(woodcrock_value, ground), offsetof(woodcrock_value, place),
           offsetof(woodcrock_value, end));
    printf("%zu %zu\n", sizeof(woodcrock_written), ALIGNMENT(woodcrock_written));
    printf("%zu %zu %zu\n", offsetof(woodcrock_written, ground), offsetof(woodcrock_written, place),
           offsetof(woodcrock_written, length));
    printf("%zu %zu\n", sizeof(woodcrock_bound), ALIGNMENT(woodcrock_bound));
    printf("%zu %zu\n", offsetof(woodcrock_bound, ground), offsetof(woodcrock_bound, place));
    printf("%zu %zu\n", offsetof(woodcrock_bound, bounded), offsetof(woodcrock_bound, frames));
    printf("%zu %zu\n", sizeof(woodcrock_words), ALIGNMENT(woodcrock_words));
    printf("%zu %zu\n", offsetof(woodcrock_words, quotes), offsetof(woodcrock_words, strings));
    printf("%zu %zu\n", offsetof(woodcrock_words, opening), offsetof(woodcrock_words, closing));
    printf("%zu %zu\n", offsetof(woodcrock_words, inside), offsetof(woodcrock_words, odd));
}

static void print_answer(const char *call, woodcrock_answer answer)
{
    printf("%s %" PRIu32 " %" PRIu32 " %" PRIu32 " %" PRIu32, call, answer.ground, answer.place,
           answer.pairs, answer.peak);
}

static void print_list(const uint32_t *list, size_t length)
{
    putchar(':');
    for (size_t at = 0; at < length; at += 1) {
        printf(" %" PRIu32, list[at]);
    }
    putchar('\n');
}

static void print_value(const char *call, woodcrock_value value)
{
    printf("%s %" PRIu32 " %zu %zu\n", call, value.ground, value.place, value.end);
}

static void print_written(const char *call, woodcrock_written written)
{
    printf("%s %" PRIu32 " %zu %zu", call, written.ground, written.place, written.length);
}

static void print_bound(const char *call, woodcrock_bound bound)
{
    printf("%s %" PRIu32 " %zu %d %" PRIu32 "\n", call, bound.ground, bound.place, bound.bounded,
           bound.frames);
}

static void print_words(const char *call, woodcrock_words words)
{
    printf("%s %" PRIx64 " %" PRIx64 " %" PRIx64 " %" PRIx64 " %d %d\n", call, words.quotes,
           words.strings, words.opening, words.closing, words.inside, words.odd);
}

int main(void)
{
    const uint8_t query[] = {'$', '.', '*'};
    const uint8_t mixed[] = {'$', '.', '.', '*', '.', '*', '!'};
    const uint8_t record[] = {'[', '3', ',', '[', '4', ']', ']'};
    const uint8_t block[] = {'[', '"', 'a', ']', '"', ']'};
    uint32_t list[5] = {9, 9, 9, 9, 9}, short_list[3] = {9, 9, 9};
    char buffer[] = "........", short_buffer[] = "......";

    print_limits();
    print_layouts();
    print_answer("plain", woodcrock_list_plain(query, 3, record, 7, list, 5));
    print_list(list, 5);
    print_answer("jumping", woodcrock_list_jumping(query, 3, record, 7, short_list, 3));
    print_list(short_list, 3);
    print_answer("empty", woodcrock_list_jumping(NULL, 0, NULL, 0, NULL, 0));
    putchar('\n');
    print_value("value", woodcrock_find_value(record, 7, 3));
    print_value("no value", woodcrock_find_value(record, 7, 2));
    print_written("path", woodcrock_write_path(record, 7, 4, (uint8_t *)buffer, 8));
    printf(": %s\n", buffer);
    print_written("long path", woodcrock_write_path(record, 7, 4, (uint8_t *)short_buffer, 6));
    printf(": %s\n", short_buffer);
    print_written("no record", woodcrock_write_path(NULL, 0, 0, NULL, 0));
    putchar('\n');
    print_bound("plain steps", woodcrock_bound_pile(query, 3));
    print_bound("a deep step", woodcrock_bound_pile(mixed, 4));
    print_bound("mixed steps", woodcrock_bound_pile(mixed, 6));
    print_bound("no steps", woodcrock_bound_pile(mixed, 7));
    print_bound("no query", woodcrock_bound_pile(NULL, 0));
    print_words("words", woodcrock_sort_block(block, 6, false, false));
    print_words("none", woodcrock_sort_block(NULL, 0, true, true));
    return 0;
}
