/* A monotone sequence (Elias-Fano) in words that the caller lends: write a record, finish it, ask it.
 *
 * Link with target/staticlib/libffi.a (`tools/build ffi` writes it; x86-64). It needs memcpy and memset of the C library and, as
 * measured with the kit before today's, up to 23,152 bytes of stack (docs/DATASHEET.md has them call by call).
 *
 * Words. A word is 64 bits. Every buffer belongs to the caller: no function keeps a pointer, allocates or frees. A call reads and
 * writes only the `len` words from the pointer on, and only while it runs. A pointer must be aligned to 8 bytes; with `len` 0 it is not
 * read. Words that a call writes must not be among those that it reads. Two calls may run at once where neither writes words that the other
 * uses.
 *
 * How long a buffer must be, in words: ef_limit says how many are enough. In so many, ef_new, ef_push and ef_build draw no 3, whatever values come; that is
 * proved. u is the universe, n num_vals, m num_pushed; / rounds down, ceil rounds up.
 *    l           = the place of the highest one of u / n, 0 if u / n is 0
 *    H           = n + 2 + u / 2^l                                 (at most 3 * n + 1)
 *    start       = 6 + ceil(H / 64) + ceil(n * l / 64)             what ef_new zeroes; a shorter buffer is refused with 3
 *    index(P, o) = ceil(P / 1024) + ceil(ceil(P / 32) / 4) + o     over P positions, o of them in its overflow list; how many, H / 64 at most, the values decide
 *    image       = 6 + ceil(H / 64) + ceil(m * l / 64) + index(m, word 4), and with rank + index(H - m, word 5)
 *    limit       = start + index(n, H / 64), and with rank + index(H, H / 64)
 * 50,000 values below 157,680,000 (five years of seconds) need 10,585 words to start, and with rank 16,111 are enough: 128,888 bytes. docs/DATASHEET.md
 * has a table.
 *
 * The image. Words 0 to 5 are the universe, num_vals, the number of values, 1 with rank or else 0, the overflow words of the index
 * over ones, and those of the index over zeros; then the high words, the low words and the indexes. It is numbers, and the same ones on every
 * machine: a file needs one order of bytes that writer and reader keep, as 8 bytes a word, little end first. ef_open tells whether
 * what was read back is an image.
 */
#ifndef ELIAS_FANO_H
#define ELIAS_FANO_H

#include <stdbool.h>
#include <stddef.h>
#include <stdint.h>

#ifdef __cplusplus
extern "C" {
#endif

/* Refusals. A refused call alters no word, and says why; 0 is no refusal. They are tested in this order: ef_limit 1, 2; ef_new 1, 2, 3; ef_push 7, 3, 4,
 * 5, 6; ef_resume 7 by the builder's numbers, 3 by the size of the start, 7 by the words; ef_build 7 by the builder's numbers, 3 by the size of the start, 7 by the words, 3 by the image's length; ef_from_bits 13, 10, 11, 2, 3;
 * ef_sarray_from_bits 13, 2, 3; ef_sums_from_slice 2, 12, 3; ef_count_in_windows 7, 17; ef_compare 7, 3. */
enum {
    EF_NO_VALUES = 1,       /* ef_limit, ef_new: num_vals is 0 */
    EF_TOO_MANY = 2,        /* ef_limit, ef_new: num_vals is over 16,777,216; ef_from_bits, ef_sarray_from_bits, ef_sums_from_slice: more ones or items */
    EF_SHORT_BUFFER = 3,    /* ef_new, ef_push, ef_resume, ef_build: below the size of the start; all that make an image: below its length; ef_compare: below four words a span */
    EF_DECREASING = 4,      /* ef_push: the value is below the last one */
    EF_OUT_OF_UNIVERSE = 5, /* ef_push: the value is not below the universe */
    EF_FULL = 6,            /* ef_push: num_vals values were pushed */
    EF_INVALID = 7,         /* no run leaves such a builder (ef_push, ef_resume, ef_build), such words (ef_resume, ef_build) or such an image (all that take one) */
    EF_NO_RANK_INDEX = 8,   /* ef_rank, ef_predecessor, ef_successor: the image was built without rank; of a sparse vector: `rank` is false */
    EF_RANGE = 9,           /* ef_binsearch_range: a range that is not empty ends past the values */
    EF_NO_BITS = 10,        /* ef_from_bits: there are 0 bits */
    EF_NO_ONES = 11,        /* ef_from_bits: none of them is 1 */
    EF_SUM_TOO_LARGE = 12,  /* ef_sums_from_slice: the sum is 2^64 - 1 or more */
    EF_INVALID_BITS = 13,   /* ef_from_bits, ef_sarray_from_bits: the words are too few for the bits, or a bit past them in the last word used is 1 */
    EF_INVALID_WINDOWS = 17 /* ef_count_in_windows: more than 32 windows, half a window, or one with a not below b or b over 604,800 */
};

/* How far a record is written: 32 bytes. It may be copied and stored; one that no run leaves, as all zeros, is refused with 7. */
typedef struct {
    uint64_t universe;   /* every value is below it */
    uint64_t num_vals;   /* how many values may be pushed, 1 to 16,777,216 */
    uint64_t num_pushed; /* how many were */
    uint64_t last;       /* the last of them, 0 while there is none */
} EfBuilder;

/* 40 bytes: 0 or the refusal, and the builder to go on with: a refused ef_push or ef_resume hands its own back, a refused ef_new all zeros. */
typedef struct {
    uint64_t refusal;
    EfBuilder builder;
} EfPushed;

/* 16 bytes: what the answer is, and its value. */
enum { EF_VALUE = 0, EF_NONE = 1, EF_REFUSED = 2 };

typedef struct {
    uint64_t kind;  /* EF_VALUE, EF_NONE or EF_REFUSED */
    uint64_t value; /* the value, 0, or the refusal */
} EfAnswer;

/* How many words are enough for every record of these settings: for its start, each push, and a build with this choice; with rank, for one without it too. They are
 * enough for ef_from_bits of `universe` bits of which num_vals are 1, and without rank for ef_sums_from_slice of num_vals items whose sum is universe - 1. Constant time. */
EfAnswer ef_limit(uint64_t universe, uint64_t num_vals, bool rank);

/* Begins a record. Zeroes the words of the start and leaves the later ones. Constant time and one pass over those words. */
EfPushed ef_new(uint64_t universe, uint64_t num_vals, uint64_t *buffer, size_t len);

/* Files one value more, which must not be below the last. Constant time. The buffer is the one that ef_new zeroed, or a copy of it. */
EfPushed ef_push(EfBuilder builder, uint64_t value, uint64_t *buffer, size_t len);

/* Goes on with a record after a power cut: whether a builder and words that were stored are what some run, from a start on and without an accepted build, leaves. Accepted, the
 * builder comes back, and every call after it answers as if there had been no cut. Nothing is written. Only the words of the start need be stored, those that ef_new zeroes; what
 * stands after them is as it is lent. One pass over them.
 * What it cannot see: a changed bit that leaves another list of as many values with the same last. Store a checksum beside them. */
EfPushed ef_resume(EfBuilder builder, const uint64_t *words, size_t len);

/* Makes an image of the words, with the index that rank needs or without it. The answer is the image's length: it stands in the first
 * words of the buffer, and the later ones stay. The image may be copied and stored: its words are the same for equal settings and values.
 *
 * In a buffer of ef_limit words or more the image is written at once; in a shorter one its length is measured before, in one pass more over the high bits for each index.
 * Refused with 3, the words are as they were: copy them into a longer buffer and build there with the same builder.
 * Accepted, the builder is done: set it to zeros, or lose it. A push by the old one into these words is not refused, and what it leaves is
 * no image (ef_open says 7). To read a record that goes on, build it in a copy of the words of the start. */
EfAnswer ef_build(EfBuilder builder, bool rank, uint64_t *buffer, size_t len);

/* Makes the image of a bit vector at once: its values are the places of the ones among the first num_bits bits of `bits`, bit i of word j being the place
 * 64 * j + i; the universe is num_bits, and num_vals the number of ones. The answer is the image's length: it stands in the first words of the buffer,
 * and the later ones stay. Words of `bits` after the last one used are not read. */
EfAnswer ef_from_bits(const uint64_t *bits, size_t len, size_t num_bits, bool rank, uint64_t *buffer, size_t buffer_len);

/* 0 if the words are an image that some run writes, else 7. `len` is the image's length, no more and no less. Linear time. */
uint64_t ef_open(const uint64_t *image, size_t len);

/* ---- one question a call
 *
 * Values are numbered from 0 in the order in which they were pushed. Each call decides 7 over the whole image first, in linear time: who
 * asks often asks many at once. A question that needs the rank index is refused with 8 where there is none. */

/* The value with the number k; EF_NONE from the number of values on. */
EfAnswer ef_select(const uint64_t *image, size_t len, size_t k);

/* The value with the number k less the one before it, and for k 0 the first value; EF_NONE from the number of values on. */
EfAnswer ef_delta(const uint64_t *image, size_t len, size_t k);

/* How many values are below `value`; EF_NONE above the universe. Needs the rank index below the universe. */
EfAnswer ef_rank(const uint64_t *image, size_t len, uint64_t value);

/* The greatest value at or below `value`; EF_NONE if there is none. Needs the rank index below the universe less 1; from there on it is
 * the last value. */
EfAnswer ef_predecessor(const uint64_t *image, size_t len, uint64_t value);

/* The smallest value at or above `value`; EF_NONE if there is none, and from the universe on. Needs the rank index. */
EfAnswer ef_successor(const uint64_t *image, size_t len, uint64_t value);

/* The number of the first value that is `value`; EF_NONE if there is none. Needs no rank index. */
EfAnswer ef_binsearch(const uint64_t *image, size_t len, uint64_t value);

/* The same among the values with the numbers from a on and below b; EF_NONE if a is not below b, else refused with 9 if b is over the number
 * of values. */
EfAnswer ef_binsearch_range(const uint64_t *image, size_t len, size_t a, size_t b, uint64_t value);

/* How many values there are; whether there is none, 1 or 0; the universe; whether there is a rank index, 1 or 0. */
EfAnswer ef_len(const uint64_t *image, size_t len);
EfAnswer ef_is_empty(const uint64_t *image, size_t len);
EfAnswer ef_universe(const uint64_t *image, size_t len);
EfAnswer ef_has_rank(const uint64_t *image, size_t len);

/* Writes the values with the numbers from k on to `out`, as many as there are or as it takes, and answers how many. The later words stay. */
EfAnswer ef_read_from(const uint64_t *image, size_t len, size_t k, uint64_t *out, size_t out_len);

/* How many values from `from` on and below `to` are in weekly windows: those whose remainder by 604,800, the seconds of a week, is in some window. A window is
 * two words of `windows`, a and b, with a below b and b at most 604,800: a belongs to it, b does not. There are 32 at most (count 64), in any order; they may
 * overlap, and a value in two of them counts once. No windows count 0, and so does a span whose `to` is not above `from`. With seconds since a Monday 00:00 as
 * values, Monday 06:00 to 08:00 is the window 21600, 28800. Needs no rank index. After opening it costs a search, and a step for each value of the span. */
EfAnswer ef_count_in_windows(const uint64_t *image, size_t len, const uint64_t *windows, size_t count, uint64_t from, uint64_t to);

/* Spans side by side, as winters: the spans are those between two neighbouring of `seconds`, count - 1 of them, each with the values from its first second on and below its second one. Of
 * each, four words go to `out`: how many values it has, the first, the last, and the shortest gap between two neighbours; 0 where there is none (of one value, no gap). A span
 * that does not end after its beginning has none. The answer is the number of spans; words after those of the spans stay. Needs no rank index. After opening it costs a search for each span, and a
 * step for each value in it. */
EfAnswer ef_compare(const uint64_t *image, size_t len, const uint64_t *seconds, size_t count, uint64_t *out, size_t out_len);

/* ---- many questions a call
 *
 * The same questions with an array of arguments: 7 is decided once, and each question then costs what it is by itself. The answers go to
 * `out`, two words to each, as an EfAnswer has them: an array of EfAnswer is lent by a cast of its pointer and twice its count,
 *
 *    EfAnswer answers[3];
 *    ef_ranks(image, len, values, 3, (uint64_t *)answers, 6);
 *
 * As many are answered as both arrays hold, count or out_len / 2, whichever is less; that number is the answer of the call, and the later
 * words of `out` stay. A question may be refused by itself, with 8. If the call is refused, with 7, `out` is as it was. */

EfAnswer ef_selects(const uint64_t *image, size_t len, const uint64_t *ks, size_t count, uint64_t *out, size_t out_len);
EfAnswer ef_deltas(const uint64_t *image, size_t len, const uint64_t *ks, size_t count, uint64_t *out, size_t out_len);
EfAnswer ef_ranks(const uint64_t *image, size_t len, const uint64_t *values, size_t count, uint64_t *out, size_t out_len);
EfAnswer ef_predecessors(const uint64_t *image, size_t len, const uint64_t *values, size_t count, uint64_t *out, size_t out_len);
EfAnswer ef_successors(const uint64_t *image, size_t len, const uint64_t *values, size_t count, uint64_t *out, size_t out_len);
EfAnswer ef_binsearches(const uint64_t *image, size_t len, const uint64_t *values, size_t count, uint64_t *out, size_t out_len);

/* ---- prefix sums
 *
 * A list of items, in any order, by the sums of its first one, two, three and so on: they are the values of an image whose universe is 1 plus the
 * sum, without rank. `buffer` must have its length, with n the number of items and u as said. No items are accepted and have no words: the
 * answer is 0, and the three questions take an image of length 0 (those of the record refuse it with 7). They take every other image too: an item
 * is the difference of two neighbouring values. */

/* Makes the image of the items. The answer is its length: it stands in the first words of the buffer, and the later ones stay. */
EfAnswer ef_sums_from_slice(const uint64_t *items, size_t count, uint64_t *buffer, size_t len);

/* The item at the place pos, counted from 0; EF_NONE from the number of items on. */
EfAnswer ef_sums_access(const uint64_t *image, size_t len, size_t pos);

/* How many items there are. */
EfAnswer ef_sums_len(const uint64_t *image, size_t len);

/* Writes the items from the place k on to `out`, as many as there are or as it takes, and answers how many. The later words stay. 7 is decided
 * once, and each item costs a step of a walk: who wants all of them asks so. */
EfAnswer ef_sums_read(const uint64_t *image, size_t len, size_t k, uint64_t *out, size_t out_len);

/* ---- a sparse bit vector
 *
 * A vector is its length num_bits, its rank choice and its image, and the caller keeps all three. The image is the one that ef_from_bits makes of
 * the same bits, and as long: u is num_bits, and n the number of ones. A vector of zeros, the empty one among them, has no words: an image of length
 * 0 is one of any num_bits, with the choice or without.
 *
 * Each question decides 7 first, in linear time: for words that ef_open refuses, a universe that is not num_bits, a word 3 that is not the choice, fewer
 * values than declared, or a value that is there twice. Then one that needs the choice is refused with 8 without it, whatever the place. */

/* Makes the image of a vector, from bits as ef_from_bits takes them. The answer is its length: it stands in the first words of the buffer, and the
 * later ones stay. For zeros it is 0, and nothing is written. */
EfAnswer ef_sarray_from_bits(const uint64_t *bits, size_t len, size_t num_bits, bool rank, uint64_t *buffer, size_t buffer_len);

/* 0 if the words are the image of a vector of that length and choice, or there are none, else 7. Linear time. */
uint64_t ef_sarray_open(const uint64_t *image, size_t len, size_t num_bits, bool rank);

/* The bit at the place pos, 1 or 0; EF_NONE from num_bits on. */
EfAnswer ef_sarray_access(const uint64_t *image, size_t len, size_t num_bits, bool rank, size_t pos);

/* How many ones stand before the place pos; EF_NONE above num_bits. Needs the choice. */
EfAnswer ef_sarray_rank1(const uint64_t *image, size_t len, size_t num_bits, bool rank, size_t pos);

/* The place of the one with the number k, counted from 0; EF_NONE from the number of ones on. */
EfAnswer ef_sarray_select1(const uint64_t *image, size_t len, size_t num_bits, bool rank, size_t k);

/* The place of the last one at pos or before it; EF_NONE if there is none, and from num_bits on. Needs the choice. */
EfAnswer ef_sarray_predecessor1(const uint64_t *image, size_t len, size_t num_bits, bool rank, size_t pos);

/* The place of the first one at pos or after it; EF_NONE if there is none, and from num_bits on. Needs the choice. */
EfAnswer ef_sarray_successor1(const uint64_t *image, size_t len, size_t num_bits, bool rank, size_t pos);

/* The same with an array of arguments, as the many questions of a record: 7 is decided once, `out` takes two words to each answer, and the answer of
 * the call is how many there are. A question may be refused by itself, with 8. */
EfAnswer ef_sarray_accesses(const uint64_t *image, size_t len, size_t num_bits, bool rank, const uint64_t *positions, size_t count, uint64_t *out,
                            size_t out_len);
EfAnswer ef_sarray_rank1s(const uint64_t *image, size_t len, size_t num_bits, bool rank, const uint64_t *positions, size_t count, uint64_t *out,
                          size_t out_len);
EfAnswer ef_sarray_select1s(const uint64_t *image, size_t len, size_t num_bits, bool rank, const uint64_t *ks, size_t count, uint64_t *out,
                            size_t out_len);
EfAnswer ef_sarray_predecessor1s(const uint64_t *image, size_t len, size_t num_bits, bool rank, const uint64_t *positions, size_t count,
                                 uint64_t *out, size_t out_len);
EfAnswer ef_sarray_successor1s(const uint64_t *image, size_t len, size_t num_bits, bool rank, const uint64_t *positions, size_t count, uint64_t *out,
                               size_t out_len);

#ifdef __cplusplus
}
#endif

#endif
