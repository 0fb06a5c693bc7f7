/*
 * Woodcrock: JSONPath on JSON records, each answer proved.
 *
 * A query (part of RFC 9535) and a record (RFC 8259 in UTF-8) are lent as bytes. A lister writes
 * where in the record the nodes stand that the query picks out; nothing of the record is copied.
 * The writer of a path tells where a node stands by names and positions. The bound on the pile tells
 * by the query alone how many frames a lister can have at once. Link with libwoodcrock_c.a.
 *
 * A query is `$` and then up to 16 steps: `.name`, `.*`, `['name']`, `["name"]`, `[*]` and `[2]` take
 * from the node itself; a deep step, `..` before the same (`..name`, `..['name']`, `..[2]`), takes
 * from the node and from every node below it. Blanks may stand before a step and inside brackets.
 * A position is written as `0` or with a first digit other than 0, and is at most
 * 9,007,199,254,740,991. A quoted name takes the escapes of RFC 9535: a backslash and one of
 * `b t n f r /`, another backslash, its own quote, or `u` and four hexadecimal digits, of which the
 * halves of a surrogate pair stand together.
 *
 * What a caller owes. The calls cannot test these; all else is free, and any bytes are answered.
 *   - A pointer with a length n > 0 is that of n readable bytes, for `buffer` of n readable and
 *     writable bytes, or, for `list`, of n readable and writable numbers at an address that is a
 *     multiple of 4. With length 0 any pointer will do, NULL too.
 *   - While the call runs, nothing else writes to what is lent or reads `list` or `buffer`, and
 *     these overlap neither `query` nor `record`. `query` and `record` may overlap each other.
 *   - A bool is 0 or 1.
 *
 * What every call keeps. It ends. It reads nothing but what it is lent, writes nothing but `list` or
 * `buffer`, and keeps nothing after it returns, so that calls may run at once on several threads. It
 * takes no memory but its stack; README.md says how much stack each call was measured to take.
 *
 * Offsets and places count bytes from 0.
 */
#ifndef WOODCROCK_H
#define WOODCROCK_H

#include <stdbool.h>
#include <stddef.h>
#include <stdint.h>

#ifdef __cplusplus
extern "C" {
#endif

/*
 * Grounds for refusing. They are tried by number, but 2 goes before 1 where its place is below 1,024,
 * and between 5 and 6 the smaller place decides.
 *
 * A dead byte of a text is the first one with which no text of its grammar can begin up to and
 * including it. If there is none and the text is incomplete, the place is the text's length.
 */
enum {
    WOODCROCK_NO_GROUND = 0,        /* no refusal; place 0 */
    WOODCROCK_QUERY_TOO_LONG = 1,   /* the query has more than 1,024 bytes, and none of the first
                                       1,024 is dead; place 1,024 */
    WOODCROCK_QUERY_MALFORMED = 2,  /* the query is not in the grammar; place of its dead byte */
    WOODCROCK_TOO_MANY_STEPS = 3,   /* more than 16 steps; place of the '.' or '[' of the 17th */
    WOODCROCK_RECORD_TOO_LONG = 4,  /* the record has more than 16,777,216 bytes; that place */
    WOODCROCK_RECORD_MALFORMED = 5, /* the record is no JSON text; place of its dead byte */
    WOODCROCK_RECORD_TOO_DEEP = 6,  /* a bracket opens level 513 of nesting; its place */
    WOODCROCK_LIST_FULL = 7,        /* more nodes than the list has pairs; first byte of the first
                                       node left over */
    WOODCROCK_NO_VALUE_THERE = 8,   /* no value begins at the offset; the offset as given */
    WOODCROCK_HALF_IN_NAME = 9,     /* a name on the way to the node, or its own, has half of a
                                       surrogate pair; opening quote of the first such name */
    WOODCROCK_PATH_TOO_LONG = 10    /* the path is longer than the buffer; first byte of the node */
};

/* The most bytes of a query and of a record that are taken, and the most frames that a pile can come
 * to, whatever the query. */
enum { WOODCROCK_MAX_QUERY = 1024, WOODCROCK_MAX_RECORD = 16777216, WOODCROCK_MAX_FRAMES = 511 };

/* The answer of a lister. */
typedef struct {
    uint32_t ground; /* 0, or why the call refuses: 1 to 7 */
    uint32_t place;  /* where in the query (1 to 3) or the record (4 to 7); 0 without a refusal */
    uint32_t pairs;  /* pairs written to the list */
    uint32_t peak;   /* most frames at once; 0 on a refusal */
} woodcrock_answer;

/* The answer of the value finder. */
typedef struct {
    uint32_t ground; /* 0, or why the call refuses: 4, 5, 6 or 8 */
    size_t place;    /* where in the record; 0 without a refusal */
    size_t end;      /* the byte after the value's last; 0 on a refusal */
} woodcrock_value;

/* The answer of the writer of a path. */
typedef struct {
    uint32_t ground; /* 0, or why the call refuses: 4, 5, 6, 8, 9 or 10 */
    size_t place;    /* where in the record; 0 without a refusal */
    size_t length;   /* bytes written to the buffer; 0 on a refusal */
} woodcrock_written;

/* The answer of the bound on the pile. */
typedef struct {
    uint32_t ground; /* 0, or why the call refuses: 1 to 3 */
    size_t place;    /* where in the query; 0 without a refusal */
    bool bounded;    /* the steps of the query bound the pile */
    uint32_t frames; /* the most frames that the pile can come to; 0 on a refusal */
} woodcrock_bound;

/* The words of a block: bit i is for the block's byte i, and bits past its end are 0. */
typedef struct {
    uint64_t quotes;  /* real quotes: an even run of backslashes stands before them */
    uint64_t strings; /* the real quotes up to and with this byte are odd in number */
    uint64_t opening; /* '[' and '{' outside strings */
    uint64_t closing; /* ']' and '}' outside strings */
    bool inside;      /* for the next block: it begins inside a string */
    bool odd;         /* for the next block: an odd run of backslashes stands just before it */
} woodcrock_words;

/*
 * Lists the nodes of a record that a query picks out.
 *
 * The list is numbers, two to a node: the node's first byte and the byte after its last. Each node
 * is listed once, and the first bytes rise. A name in the query takes the members whose name has the
 * same code points, escapes decoded on both sides; a name in the record with half of a surrogate pair
 * equals none. Members that repeat a name all match. A position takes the element of an array that
 * has it, counted from 0, and nothing of an object.
 *
 * Ground 0: every node picked out is in the list, `pairs` of them, and no other. `peak` is the most
 *   frames on one path down from the root: an object or array below the root costs a frame if its
 *   marks differ from those of the one around it. A node has mark i, from 0 up to the number of
 *   steps less 1, if the first i steps, as a query, pick it out, or if step i + 1 is deep and its
 *   parent has mark i.
 * Ground 7: the list holds the first list_len / 2 nodes, which are all before `place`; `pairs` is
 *   list_len / 2.
 * Grounds 1 to 6: nothing is written; `pairs` is 0.
 * Always: the numbers of the list from 2 * pairs on keep what they held.
 *
 * The two walks give the same answer and leave the same list. The plain walk enters every
 * container; the jumping walk goes straight to the end of a container in which nothing can match.
 */
woodcrock_answer woodcrock_list_plain(const uint8_t *query, size_t query_len,
                                      const uint8_t *record, size_t record_len,
                                      uint32_t *list, size_t list_len);
woodcrock_answer woodcrock_list_jumping(const uint8_t *query, size_t query_len,
                                        const uint8_t *record, size_t record_len,
                                        uint32_t *list, size_t list_len);

/*
 * Finds the end of the value whose first byte is at `offset`; any offset may be asked for.
 *
 * Ground 0: a value of the record begins at `offset` and `end` is the byte after its last, so it is
 *   the bytes from record + offset up to record + end.
 * Grounds 4 to 6: the record is refused. Ground 8: no value begins there; a member's name is none.
 */
woodcrock_value woodcrock_find_value(const uint8_t *record, size_t record_len, size_t offset);

/*
 * Writes the path of the node whose first byte is at `offset` to the start of a buffer; any offset
 * may be asked for. A list has the first bytes of its nodes.
 *
 * It is the normalized path of RFC 9535, section 2.7: `$`, and then in brackets the name or the
 * position of each node on the way from the root down to and with this one, as in
 * `$['blend'][0]['lot']`; in UTF-8, with no zero byte behind it. A name stands between single quotes,
 * its escapes decoded. In it a single quote and a backslash have a backslash before them; a control
 * below 20 (hexadecimal) is a backslash and one of `b t n f r`, or `u00` and two digits in lower case;
 * all else is itself. Members of one object that repeat a name have the same path. A path of at most
 * 16 steps and 1,024 bytes is a query that picks out exactly the nodes that have it.
 *
 * Ground 0: the first `length` bytes of the buffer are the path.
 * Grounds 4 to 6 and 8: as for the value finder.
 * Ground 9: a name on the way to the node, or its own, has half of a surrogate pair, which no path
 *   can hold.
 * Ground 10: the path is longer than the buffer. Twice as many bytes as the record has are enough for
 *   each of its paths.
 * Always: the bytes of the buffer from `length` on keep what they held, on a refusal all of them.
 *
 * Every call checks the whole record, so that the paths of many nodes take as many checks.
 */
woodcrock_written woodcrock_write_path(const uint8_t *record, size_t record_len, size_t offset,
                                       uint8_t *buffer, size_t buffer_len);

/*
 * Bounds the pile of a query: the frames that a lister can have at once, in whatever record. What costs
 * a frame stands with the listers; `peak` is the most that there were at once. No record is lent, so
 * that memory for frames can be sized from the query alone. The stack of a call does not go by it.
 *
 * Ground 0, by the n steps of the query, names, `*` and positions alike:
 *   - only plain steps, or no step: `bounded` is true, `frames` is n;
 *   - plain steps, or none, and then one or more deep steps: `bounded` is true, `frames` is n - 1;
 *   - a plain step somewhere behind a deep one: the steps give no bound; `bounded` is false, `frames`
 *     is WOODCROCK_MAX_FRAMES, which is all that a record of 512 levels has room for: one frame for
 *     each level below that of the root.
 * Grounds 1 to 3: the query is refused, as the listers refuse it; `bounded` is false, `frames` is 0.
 * Always: the `peak` that either lister answers to this query is at most `frames`, in every record.
 *
 * The bounds are reached: `$.a.a` and `$.a.a..a` have `frames` 2, and peak 2 on {"a":{"a":{"a":{}}}};
 * `$..a.b` has peak 511 on {"a":{"b":{"a":{"b":..}}}} with 512 levels.
 */
woodcrock_bound woodcrock_bound_pile(const uint8_t *query, size_t query_len);

/*
 * Sorts one block, the first 64 bytes of `rest` or fewer if it has fewer, into words of bits.
 *
 * `inside` counts as one real quote before the block, `odd` as one backslash just before it. Both
 * are false at the start of a record; after that they are the two facts of the block before. This
 * holds for all bytes and refuses none. An empty `rest` gives four words of 0 and both facts back.
 */
woodcrock_words woodcrock_sort_block(const uint8_t *rest, size_t rest_len, bool inside, bool odd);

#ifdef __cplusplus
}
#endif

#endif
