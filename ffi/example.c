/* A record of burner starts in C: written, finished, asked every question, kept in a file, refused once for each reason, and how long its
 * buffers must be; a record from bits, a list of items by its prefix sums, and a sparse bit vector. `ffi/run` builds and runs it. */
#include "elias_fano.h"
#include <inttypes.h>
#include <stdio.h>
#include <stdlib.h>
#include <string.h>

static void must(bool ok, const char *what) {
    if (!ok) {
        fprintf(stderr, "wrong: %s\n", what);
        exit(1);
    }
}

/* ---- the sizes of the header */

static uint64_t up(uint64_t a, uint64_t b) { return a / b + (a % b != 0); }

static uint64_t low_len(uint64_t u, uint64_t n) {
    uint64_t l = 0;
    for (uint64_t q = u / n; q > 1; q /= 2) {
        l++;
    }
    return l;
}

static uint64_t high_len(uint64_t u, uint64_t n) { return n + 2 + (u >> low_len(u, n)); }

/* What ef_new zeroes. */
static uint64_t start_words(uint64_t u, uint64_t n) { return 6 + up(high_len(u, n), 64) + up(n * low_len(u, n), 64); }

static uint64_t index_words(uint64_t positions, uint64_t overflow) { return up(positions, 1024) + up(up(positions, 32), 4) + overflow; }

/* The length of an image, from its first six words. */
static uint64_t image_words(const uint64_t *w) {
    uint64_t u = w[0], n = w[1], m = w[2], high = high_len(u, n);
    uint64_t bits = 6 + up(high, 64) + up(m * low_len(u, n), 64);
    return bits + index_words(m, w[4]) + (w[3] == 1 ? index_words(high - m, w[5]) : 0);
}

/* Enough for every record of u and n. */
static uint64_t enough_words(uint64_t u, uint64_t n, bool rank) {
    EfAnswer limit = ef_limit(u, n, rank);
    uint64_t high = high_len(u, n), overflow = high / 64;
    must(limit.kind == EF_VALUE, "a limit");
    must(limit.value == start_words(u, n) + index_words(n, overflow) + (rank ? index_words(high, overflow) : 0), "the limit, as the header has it");
    return limit.value;
}

/* ---- the safe way: once an image is made its builder is all zeros, which every call refuses, so no push can reach the image */

static EfAnswer finish(EfBuilder *builder, bool rank, uint64_t *buffer, size_t len) {
    EfAnswer built = ef_build(*builder, rank, buffer, len);
    if (built.kind == EF_VALUE) {
        memset(builder, 0, sizeof *builder);
    }
    return built;
}

static uint64_t *words(uint64_t len) {
    uint64_t *w = calloc(len, sizeof *w);
    must(w != NULL, "memory");
    return w;
}

/* m values with the same gap: each size is accepted, and a word less refused. */
static void sizes(uint64_t u, uint64_t n, uint64_t m, uint64_t gap, bool rank) {
    uint64_t start = start_words(u, n), enough = enough_words(u, n, rank);
    uint64_t *buffer = words(enough), *copy = words(enough);
    must(ef_new(u, n, buffer, start - 1).refusal == EF_SHORT_BUFFER, "a word less than a start needs");
    EfPushed p = ef_new(u, n, buffer, start);
    must(p.refusal == 0, "a start of its size");
    for (uint64_t k = 0; k < m; k++) {
        p = ef_push(p.builder, k * gap, buffer, start);
        must(p.refusal == 0, "a push in the start's size");
    }
    memcpy(copy, buffer, start * sizeof *buffer);
    EfAnswer built = ef_build(p.builder, rank, copy, enough);
    must(built.kind == EF_VALUE && built.value == image_words(copy), "the image's length");
    uint64_t least = built.value < start ? start : built.value;
    memcpy(copy, buffer, start * sizeof *buffer);
    EfAnswer refused = ef_build(p.builder, rank, copy, least - 1);
    must(refused.kind == EF_REFUSED && refused.value == EF_SHORT_BUFFER, "a word less than a build needs");
    must(ef_build(p.builder, rank, copy, least).kind == EF_VALUE, "a build of its size");
    printf("u %" PRIu64 ", n %" PRIu64 ", %" PRIu64 " values: start %" PRIu64 " words, image %" PRIu64 ", enough %" PRIu64 "\n", u, n, m, start,
           built.value, enough);
    free(buffer);
    free(copy);
}

static void record(void) {
    static const uint64_t times[] = {3, 4, 4, 13};
    static const uint64_t expected[] = {20, 4, 4, 1, 0, 0, 77, 67, 0, 0, 1, 0};
    uint64_t buffer[8]; /* a start of u 20, n 4 */
    must(start_words(20, 4) == 8, "the start's size");
    must(ef_limit(20, 0, true).value == EF_NO_VALUES && ef_limit(20, 16777217, true).value == EF_TOO_MANY, "a limit that is refused");
    must(ef_new(20, 0, buffer, 8).refusal == EF_NO_VALUES, "no values");
    must(ef_new(20, 16777217, buffer, 8).refusal == EF_TOO_MANY, "too many values");
    must(ef_new(20, 4, buffer, 7).refusal == EF_SHORT_BUFFER, "a short buffer");

    EfPushed p = ef_new(20, 4, buffer, 8);
    must(p.refusal == 0, "a new record");
    for (size_t i = 0; i < 4; i++) {
        p = ef_push(p.builder, times[i], buffer, 8);
        must(p.refusal == 0, "a push");
    }
    EfBuilder builder = p.builder;
    p = ef_resume(builder, buffer, 8);
    must(p.refusal == 0 && memcmp(&p.builder, &builder, sizeof builder) == 0, "going on with what was stored");
    must(ef_resume(builder, buffer, 7).refusal == EF_SHORT_BUFFER, "words that were cut short");
    must(ef_push(builder, 3, buffer, 8).refusal == EF_DECREASING, "a value below the last");
    must(ef_push(builder, 20, buffer, 8).refusal == EF_OUT_OF_UNIVERSE, "a value past the universe");
    must(ef_push(builder, 13, buffer, 8).refusal == EF_FULL, "a value too many");
    EfBuilder forged = builder;
    forged.last = 12;
    must(ef_build(forged, true, buffer, 8).value == EF_INVALID, "another last value");
    must(ef_resume(forged, buffer, 8).refusal == EF_INVALID, "going on with another last value");

    /* The image with rank is longer than the start: refused, and tried again in a longer copy. */
    EfAnswer built = finish(&builder, true, buffer, 8);
    must(built.kind == EF_REFUSED && built.value == EF_SHORT_BUFFER, "no room for the image");
    uint64_t longer[16];
    for (size_t i = 0; i < 16; i++) {
        longer[i] = i < 8 ? buffer[i] : 5;
    }
    built = finish(&builder, true, longer, 16);
    must(built.kind == EF_VALUE && built.value == 12, "the image's length");
    must(memcmp(longer, expected, sizeof expected) == 0 && longer[12] == 5, "the image's words, and the one after them");
    must(ef_push(builder, 13, longer, 16).refusal == EF_INVALID, "a push after the build");
    must(ef_build(builder, true, longer, 16).value == EF_INVALID, "a build after the build");
    must(ef_resume(builder, longer, 16).refusal == EF_INVALID, "going on after the build");

    must(ef_open(longer, 12) == 0 && ef_open(longer, 13) == EF_INVALID && ef_open(longer, 0) == EF_INVALID, "opening");
    for (size_t k = 0; k < 4; k++) {
        EfAnswer t = ef_select(longer, 12, k);
        must(t.kind == EF_VALUE && t.value == times[k], "select");
        printf("select(%zu) = %" PRIu64 "\n", k, t.value);
    }
    must(ef_select(longer, 12, 4).kind == EF_NONE, "none after the last");
    longer[6] ^= 1;
    must(ef_select(longer, 12, 0).kind == EF_REFUSED && ef_select(longer, 12, 0).value == EF_INVALID, "a changed image");
}

/* A box that sizes its buffer before the first start, and draws no 3: readings good and bad, until it is full. */
static void sized(uint64_t u, uint64_t n, bool rank) {
    uint64_t len = enough_words(u, n, rank), *buffer = words(len), last = 0;
    EfPushed p = ef_new(u, n, buffer, len);
    must(p.refusal == 0, "a start in the limit");
    while (p.builder.num_pushed < n) {
        uint64_t value = p.builder.num_pushed % 3 == 0 ? last : last + (u - last) / 4096;
        must(ef_push(p.builder, u, buffer, len).refusal == EF_OUT_OF_UNIVERSE, "a value past the universe");
        p = ef_push(p.builder, value, buffer, len);
        must(p.refusal == 0, "a push in the limit");
        last = value;
    }
    must(ef_push(p.builder, last, buffer, len).refusal == EF_FULL, "a full record");
    EfAnswer built = finish(&p.builder, rank, buffer, len);
    must(built.kind == EF_VALUE && built.value <= len && ef_open(buffer, built.value) == 0, "a build in the limit");
    must(ef_select(buffer, built.value, n - 1).value == last, "its last value");
    free(buffer);
}

/* A record is read while it goes on: an image is made in a copy. Without the copy, the next push spoils the image. */
static void going_on(void) {
    uint64_t buffer[16] = {0}, copy[16];
    EfPushed p = ef_new(20, 4, buffer, 16);
    p = ef_push(p.builder, 3, buffer, 16);
    memcpy(copy, buffer, sizeof copy);
    EfBuilder of_copy = p.builder;
    EfAnswer built = finish(&of_copy, false, copy, 16);
    must(built.kind == EF_VALUE && ef_select(copy, built.value, 0).value == 3, "an image of one value");
    p = ef_push(p.builder, 4, buffer, 16);
    must(p.refusal == 0 && ef_open(copy, built.value) == 0, "a push after it");

    built = ef_build(p.builder, false, buffer, 16);
    must(built.kind == EF_VALUE && ef_open(buffer, built.value) == 0, "an image of two values");
    p = ef_push(p.builder, 13, buffer, 16);
    must(p.refusal == 0 && ef_open(buffer, built.value) == EF_INVALID, "a push into an image, which is none any more");
}

/* ---- every question */

static bool is_value(EfAnswer a, uint64_t value) { return a.kind == EF_VALUE && a.value == value; }

static bool is_none(EfAnswer a) { return a.kind == EF_NONE && a.value == 0; }

static bool is_refused(EfAnswer a, uint64_t refusal) { return a.kind == EF_REFUSED && a.value == refusal; }

static bool same(EfAnswer a, EfAnswer b) { return a.kind == b.kind && a.value == b.value; }

/* The image of 3, 4, 4, 13 below 20. */
static size_t image_of_four(bool rank, uint64_t *buffer, size_t len) {
    static const uint64_t times[] = {3, 4, 4, 13};
    EfPushed p = ef_new(20, 4, buffer, len);
    for (size_t i = 0; i < 4; i++) {
        p = ef_push(p.builder, times[i], buffer, len);
    }
    EfAnswer built = ef_build(p.builder, rank, buffer, len);
    must(built.kind == EF_VALUE, "an image of four values");
    return built.value;
}

static void questions(const uint64_t *w, size_t len) {
    must(is_value(ef_delta(w, len, 0), 3) && is_value(ef_delta(w, len, 3), 9) && is_none(ef_delta(w, len, 4)), "delta");
    must(is_value(ef_rank(w, len, 4), 1) && is_value(ef_rank(w, len, 5), 3), "rank");
    must(is_value(ef_rank(w, len, 20), 4) && is_none(ef_rank(w, len, 21)), "rank from the universe on");
    must(is_value(ef_predecessor(w, len, 12), 4) && is_none(ef_predecessor(w, len, 2)), "predecessor");
    must(is_value(ef_predecessor(w, len, 19), 13) && is_value(ef_predecessor(w, len, 20), 13), "predecessor at the universe");
    must(is_value(ef_predecessor(w, len, UINT64_MAX), 13), "predecessor past the universe");
    must(is_value(ef_successor(w, len, 5), 13) && is_none(ef_successor(w, len, 14)), "successor");
    must(is_value(ef_binsearch(w, len, 4), 1) && is_none(ef_binsearch(w, len, 5)), "binsearch");
    must(is_value(ef_binsearch_range(w, len, 2, 4, 4), 2) && is_none(ef_binsearch_range(w, len, 0, 1, 4)), "binsearch_range");
    must(is_none(ef_binsearch_range(w, len, 9, 9, 4)) && is_refused(ef_binsearch_range(w, len, 0, 5, 4), EF_RANGE), "a range's ends");
    must(is_value(ef_len(w, len), 4) && is_value(ef_is_empty(w, len), 0), "len, is_empty");
    must(is_value(ef_universe(w, len), 20) && is_value(ef_has_rank(w, len), 1), "universe, has_rank");
    uint64_t out[5] = {9, 9, 9, 9, 9};
    must(is_value(ef_read_from(w, len, 1, out, 5), 3) && out[0] == 4 && out[2] == 13 && out[3] == 9, "read_from");
    must(is_value(ef_read_from(w, len, 0, out, 1), 1) && out[0] == 3 && out[1] == 4, "read_from into one word");
}

/* Starts inside weekly windows, of the values 3, 4, 4 and 13. */
static void windows(const uint64_t *w, size_t len) {
    static const uint64_t some[] = {4, 13, 3, 5}, half[] = {4, 13, 5}, wrong[] = {5, 5}, late[] = {0, 604801}, week[] = {0, 604800};
    uint64_t many[66];
    for (size_t i = 0; i < 66; i++) {
        many[i] = i % 2 == 0 ? 3 : 4;
    }
    must(is_value(ef_count_in_windows(w, len, some, 2, 0, 20), 2), "13 is not in the window that ends there, 4 is in the one that begins there");
    must(is_value(ef_count_in_windows(w, len, some, 4, 0, 20), 3), "a value in two windows counts once");
    must(is_value(ef_count_in_windows(w, len, week, 2, 4, 13), 2) && is_value(ef_count_in_windows(w, len, week, 2, 0, UINT64_MAX), 4), "the whole week");
    must(is_value(ef_count_in_windows(w, len, week, 2, 13, 4), 0) && is_value(ef_count_in_windows(w, len, week, 0, 0, 20), 0), "a reversed span, no windows");
    must(is_value(ef_count_in_windows(w, len, many, 64, 0, 20), 1), "32 windows");
    must(is_refused(ef_count_in_windows(w, len, many, 66, 0, 20), EF_INVALID_WINDOWS), "33 windows");
    must(is_refused(ef_count_in_windows(w, len, half, 3, 20, 0), EF_INVALID_WINDOWS), "half a window, also for a reversed span");
    must(is_refused(ef_count_in_windows(w, len, wrong, 2, 0, 20), EF_INVALID_WINDOWS), "a window that is empty");
    must(is_refused(ef_count_in_windows(w, len, late, 2, 0, 20), EF_INVALID_WINDOWS), "a window that ends after the week");
    must(is_refused(ef_count_in_windows(w, len - 1, half, 3, 0, 20), EF_INVALID), "no image, before no windows");
}

/* Spans side by side, of the same values. */
static void spans(const uint64_t *w, size_t len) {
    static const uint64_t seconds[] = {0, 4, 20, 5};
    static const uint64_t expected[] = {1, 3, 3, 0, 3, 4, 13, 0, 0, 0, 0, 0, 9};
    uint64_t out[13];
    for (size_t i = 0; i < 13; i++) {
        out[i] = 9;
    }
    must(is_refused(ef_compare(w, len, seconds, 4, out, 11), EF_SHORT_BUFFER) && out[0] == 9, "no room for three spans");
    must(is_refused(ef_compare(w, len - 1, seconds, 4, out, 11), EF_INVALID), "no image, before no room");
    must(is_value(ef_compare(w, len, seconds, 4, out, 13), 3) && memcmp(out, expected, sizeof expected) == 0, "two spans and a reversed one, and the word after them");
    must(is_value(ef_compare(w, len, seconds, 1, out, 0), 0), "one second, no span");
}

/* Many at once are one after the other; three arguments, and room for two answers and a half. */
static void at_once(const char *what, const uint64_t *w, size_t len, const uint64_t args[3],
                    EfAnswer (*many)(const uint64_t *, size_t, const uint64_t *, size_t, uint64_t *, size_t), const EfAnswer one[3]) {
    EfAnswer all[3] = {{5, 5}, {5, 5}, {5, 5}};
    must(is_value(many(w, len, args, 3, (uint64_t *)all, 6), 3), what);
    for (size_t i = 0; i < 3; i++) {
        must(same(all[i], one[i]), what);
        all[i] = (EfAnswer){5, 5};
    }
    must(is_value(many(w, len, args, 3, (uint64_t *)all, 5), 2) && all[2].kind == 5 && all[2].value == 5, what);
    all[0] = (EfAnswer){5, 5};
    must(is_refused(many(w, len - 1, args, 3, (uint64_t *)all, 6), EF_INVALID) && all[0].kind == 5 && all[0].value == 5, what);
}

static void many_questions(const uint64_t *w, size_t n) {
    static const uint64_t ks[3] = {3, 0, 4}, values[3] = {4, 20, 12};
    at_once("selects", w, n, ks, ef_selects, (EfAnswer[3]){ef_select(w, n, 3), ef_select(w, n, 0), ef_select(w, n, 4)});
    at_once("deltas", w, n, ks, ef_deltas, (EfAnswer[3]){ef_delta(w, n, 3), ef_delta(w, n, 0), ef_delta(w, n, 4)});
    at_once("ranks", w, n, values, ef_ranks, (EfAnswer[3]){ef_rank(w, n, 4), ef_rank(w, n, 20), ef_rank(w, n, 12)});
    at_once("predecessors", w, n, values, ef_predecessors, (EfAnswer[3]){ef_predecessor(w, n, 4), ef_predecessor(w, n, 20), ef_predecessor(w, n, 12)});
    at_once("successors", w, n, values, ef_successors, (EfAnswer[3]){ef_successor(w, n, 4), ef_successor(w, n, 20), ef_successor(w, n, 12)});
    at_once("binsearches", w, n, values, ef_binsearches, (EfAnswer[3]){ef_binsearch(w, n, 4), ef_binsearch(w, n, 20), ef_binsearch(w, n, 12)});
}

/* An image without the rank index answers what needs none. */
static void without_rank(void) {
    uint64_t w[16];
    size_t len = image_of_four(false, w, 16);
    must(is_value(ef_has_rank(w, len), 0) && is_value(ef_select(w, len, 1), 4) && is_value(ef_binsearch(w, len, 13), 3), "no rank index");
    must(is_refused(ef_rank(w, len, 4), EF_NO_RANK_INDEX) && is_value(ef_rank(w, len, 20), 4), "rank with no index");
    must(is_refused(ef_predecessor(w, len, 18), EF_NO_RANK_INDEX) && is_value(ef_predecessor(w, len, 19), 13), "predecessor with no index");
    must(is_value(ef_predecessor(w, len, 20), 13), "predecessor at the universe with no index");
    must(is_refused(ef_successor(w, len, 5), EF_NO_RANK_INDEX) && is_none(ef_successor(w, len, 20)), "successor with no index");
    EfAnswer ranks[2];
    must(is_value(ef_ranks(w, len, (const uint64_t[2]){4, 20}, 2, (uint64_t *)ranks, 4), 2), "ranks with no index");
    must(is_refused(ranks[0], EF_NO_RANK_INDEX) && is_value(ranks[1], 4), "each rank by itself");

    EfAnswer built = ef_build(ef_new(20, 4, w, 16).builder, true, w, 16);
    must(built.kind == EF_VALUE && is_value(ef_is_empty(w, built.value), 1) && is_value(ef_len(w, built.value), 0), "an empty record");
    must(is_none(ef_predecessor(w, built.value, 20)), "no predecessor in an empty record");
    must(is_none(ef_select(w, built.value, 0)) && is_value(ef_rank(w, built.value, 7), 0) && is_none(ef_successor(w, built.value, 0)), "and its answers");
}

/* ---- a file: 8 bytes a word, little end first */

static void save(FILE *file, const uint64_t *w, size_t len) {
    for (size_t i = 0; i < 8 * len; i++) {
        must(fputc((int)(w[i / 8] >> (i % 8 * 8) & 0xff), file) != EOF, "a written byte");
    }
}

static void load(FILE *file, uint64_t *w, size_t len) {
    rewind(file);
    memset(w, 0, len * sizeof *w);
    for (size_t i = 0; i < 8 * len; i++) {
        int byte = fgetc(file);
        must(byte != EOF, "a read byte");
        w[i / 8] |= (uint64_t)byte << (i % 8 * 8);
    }
}

/* An image that is kept in a file is opened and asked again; with one byte changed it is refused. */
static void kept(const uint64_t *w, size_t len) {
    uint64_t back[16];
    FILE *file = tmpfile();
    must(file != NULL && len <= 16, "a file");
    save(file, w, len);
    load(file, back, len);
    must(memcmp(back, w, len * sizeof *w) == 0 && ef_open(back, len) == 0 && is_value(ef_rank(back, len, 5), 3), "the image read back");
    must(fseek(file, 8 * 6, SEEK_SET) == 0 && fputc((int)(w[6] & 0xff) ^ 1, file) != EOF, "a changed byte");
    load(file, back, len);
    must(ef_open(back, len) == EF_INVALID && is_refused(ef_rank(back, len, 5), EF_INVALID), "the image with a changed byte");
    fclose(file);
}

/* ---- a record from bits */

static void from_bits(void) {
    static const uint64_t bits[] = {8216, 99}; /* places 3, 4 and 13; the second word is not read */
    static const uint64_t padded[] = {8216 + (1 << 20)};
    static const uint64_t zeros[] = {0};
    uint64_t w[16], out[4];
    for (size_t i = 0; i < 16; i++) {
        w[i] = 7;
    }
    must(is_refused(ef_from_bits(bits, 1, 65, true, w, 16), EF_INVALID_BITS), "too few words for the bits");
    must(is_refused(ef_from_bits(padded, 1, 20, true, w, 16), EF_INVALID_BITS), "a bit past the last");
    must(is_refused(ef_from_bits(bits, 2, 0, true, w, 16), EF_NO_BITS), "no bits");
    must(is_refused(ef_from_bits(zeros, 1, 64, true, w, 16), EF_NO_ONES), "no ones");
    must(is_refused(ef_from_bits(bits, 2, 20, true, w, 11), EF_SHORT_BUFFER) && w[0] == 7, "bits in a short buffer");
    must(is_value(ef_from_bits(bits, 2, 20, true, w, 16), 12) && image_words(w) == 12 && w[12] == 7, "the image of the bits, and the word after it");
    must(ef_open(w, 12) == 0 && is_value(ef_universe(w, 12), 20) && is_value(ef_rank(w, 12, 14), 3), "a record of places");
    must(is_value(ef_read_from(w, 12, 0, out, 4), 3) && out[0] == 3 && out[1] == 4 && out[2] == 13, "the places");
    must(is_value(ef_from_bits(bits, 2, 20, false, w, 16), 10) && is_refused(ef_rank(w, 10, 14), EF_NO_RANK_INDEX), "the image without rank");
}

/* ---- prefix sums */

static void prefix_sums(void) {
    static const uint64_t items[] = {3, 0, 5};
    static const uint64_t expected[] = {9, 3, 3, 0, 0, 0, 70, 3, 1, 0};
    static const uint64_t large[] = {UINT64_MAX - 1, 1};
    uint64_t w[12], out[5];
    for (size_t i = 0; i < 12; i++) {
        w[i] = 7;
    }
    must(is_refused(ef_sums_from_slice(items, 3, w, 9), EF_SHORT_BUFFER) && w[0] == 7, "items in a short buffer");
    must(is_refused(ef_sums_from_slice(large, 2, w, 0), EF_SUM_TOO_LARGE), "a sum of 2^64 - 1");
    must(is_value(ef_sums_from_slice(items, 3, w, 12), 10) && image_words(w) == 10, "the image of the items");
    must(memcmp(w, expected, sizeof expected) == 0 && w[10] == 7, "its words, and the one after them");
    must(is_value(ef_universe(w, 10), 9) && is_value(ef_select(w, 10, 2), 8) && is_refused(ef_rank(w, 10, 3), EF_NO_RANK_INDEX), "a record of sums");

    must(is_value(ef_sums_len(w, 10), 3) && is_value(ef_sums_access(w, 10, 2), 5) && is_none(ef_sums_access(w, 10, 3)), "an item");
    out[2] = 9;
    must(is_value(ef_sums_read(w, 10, 1, out, 5), 2) && out[0] == 0 && out[1] == 5 && out[2] == 9, "the items from the second on");
    must(is_value(ef_sums_read(w, 10, 0, out, 1), 1) && out[0] == 3 && is_value(ef_sums_read(w, 10, 3, out, 5), 0), "one item, and none");
    w[6] ^= 1;
    must(is_refused(ef_sums_read(w, 10, 0, out, 5), EF_INVALID) && out[0] == 3, "items of a changed image");

    must(is_value(ef_sums_from_slice(items, 0, w, 12), 0), "no items");
    must(is_value(ef_sums_len(w, 0), 0) && is_none(ef_sums_access(w, 0, 0)) && is_value(ef_sums_read(w, 0, 0, out, 5), 0), "no words");
    must(is_refused(ef_len(w, 0), EF_INVALID), "a record question of no words");
}

/* ---- a sparse bit vector */

typedef EfAnswer (*OfVector)(const uint64_t *, size_t, size_t, bool, size_t);
typedef EfAnswer (*ManyOfVector)(const uint64_t *, size_t, size_t, bool, const uint64_t *, size_t, uint64_t *, size_t);

static EfAnswer value(uint64_t x) { return (EfAnswer){EF_VALUE, x}; }

/* A question of a vector of 20 bits: each of five arguments by itself, and all at once. */
static void of_vector(const char *what, const uint64_t *w, size_t len, bool rank, OfVector one, ManyOfVector many, const uint64_t args[5],
                      const EfAnswer expected[5]) {
    EfAnswer all[5];
    must(is_value(many(w, len, 20, rank, args, 5, (uint64_t *)all, 10), 5), what);
    for (size_t i = 0; i < 5; i++) {
        must(same(one(w, len, 20, rank, args[i]), expected[i]) && same(all[i], expected[i]), what);
    }
}

static void sparse(void) {
    static const uint64_t bits[] = {8216}; /* places 3, 4 and 13 */
    static const uint64_t padded[] = {8216 + (1 << 20)};
    static const uint64_t zeros[] = {0};
    static const uint64_t at[5] = {4, 5, 19, 20, 21}, ks[5] = {0, 1, 2, 3, 21};
    const EfAnswer no = {EF_NONE, 0}, eight = {EF_REFUSED, EF_NO_RANK_INDEX};
    const EfAnswer nones[5] = {no, no, no, no, no}, eights[5] = {eight, eight, eight, eight, eight};
    const EfAnswer set[5] = {value(1), value(0), value(0), no, no}, ones[5] = {value(3), value(4), value(13), no, no};
    uint64_t w[16], record[16];
    for (size_t i = 0; i < 16; i++) {
        w[i] = record[i] = 7;
    }
    must(is_refused(ef_sarray_from_bits(padded, 1, 20, true, w, 16), EF_INVALID_BITS), "a bit past the vector");
    must(is_refused(ef_sarray_from_bits(bits, 1, 20, true, w, 11), EF_SHORT_BUFFER) && w[0] == 7, "a vector in a short buffer");
    must(is_value(ef_sarray_from_bits(bits, 1, 20, true, w, 16), 12) && ef_sarray_open(w, 12, 20, true) == 0, "the image of a vector");
    must(is_value(ef_from_bits(bits, 1, 20, true, record, 16), 12) && memcmp(w, record, sizeof w) == 0, "which is the record's");
    of_vector("access", w, 12, true, ef_sarray_access, ef_sarray_accesses, at, set);
    of_vector("rank1", w, 12, true, ef_sarray_rank1, ef_sarray_rank1s, at, (EfAnswer[5]){value(1), value(2), value(3), value(3), no});
    of_vector("select1", w, 12, true, ef_sarray_select1, ef_sarray_select1s, ks, ones);
    of_vector("predecessor1", w, 12, true, ef_sarray_predecessor1, ef_sarray_predecessor1s, at, (EfAnswer[5]){value(4), value(4), value(13), no, no});
    of_vector("successor1", w, 12, true, ef_sarray_successor1, ef_sarray_successor1s, at, (EfAnswer[5]){value(4), value(13), no, no, no});

    uint64_t out[2] = {5, 5};
    must(ef_sarray_open(w, 12, 21, true) == EF_INVALID && is_refused(ef_sarray_access(w, 12, 21, true, 4), EF_INVALID), "another length");
    must(is_refused(ef_sarray_accesses(w, 12, 21, true, at, 1, out, 2), EF_INVALID) && out[0] == 5 && out[1] == 5, "many of another length");
    must(ef_sarray_open(w, 12, 20, false) == EF_INVALID && is_refused(ef_sarray_rank1(w, 12, 20, false, 4), EF_INVALID), "another choice");
    size_t four = image_of_four(true, record, 16);
    must(ef_open(record, four) == 0 && ef_sarray_open(record, four, 20, true) == EF_INVALID, "a value that is there twice");

    must(is_value(ef_sarray_from_bits(bits, 1, 20, false, w, 16), 10) && ef_sarray_open(w, 10, 20, false) == 0, "a vector without the choice");
    of_vector("access without it", w, 10, false, ef_sarray_access, ef_sarray_accesses, at, set);
    of_vector("rank1 without it", w, 10, false, ef_sarray_rank1, ef_sarray_rank1s, at, eights);
    of_vector("select1 without it", w, 10, false, ef_sarray_select1, ef_sarray_select1s, ks, ones);
    of_vector("predecessor1 without it", w, 10, false, ef_sarray_predecessor1, ef_sarray_predecessor1s, at, eights);
    of_vector("successor1 without it", w, 10, false, ef_sarray_successor1, ef_sarray_successor1s, at, eights);

    w[0] = 7;
    must(is_value(ef_sarray_from_bits(zeros, 1, 20, true, w, 16), 0) && w[0] == 7 && ef_sarray_open(w, 0, 20, true) == 0, "zeros");
    of_vector("access of zeros", w, 0, true, ef_sarray_access, ef_sarray_accesses, at, (EfAnswer[5]){value(0), value(0), value(0), no, no});
    of_vector("rank1 of zeros", w, 0, true, ef_sarray_rank1, ef_sarray_rank1s, at, (EfAnswer[5]){value(0), value(0), value(0), value(0), no});
    of_vector("select1 of zeros", w, 0, true, ef_sarray_select1, ef_sarray_select1s, ks, nones);
    of_vector("predecessor1 of zeros", w, 0, true, ef_sarray_predecessor1, ef_sarray_predecessor1s, at, nones);
    of_vector("successor1 of zeros", w, 0, true, ef_sarray_successor1, ef_sarray_successor1s, at, nones);
    of_vector("rank1 of zeros without the choice", w, 0, false, ef_sarray_rank1, ef_sarray_rank1s, at, eights);
    must(is_value(ef_sarray_from_bits(bits, 0, 0, true, w, 16), 0) && is_none(ef_sarray_access(w, 0, 0, true, 0)), "a vector of no bits");
}

int main(void) {
    uint64_t image[16];
    size_t len = image_of_four(true, image, 16);
    record();
    going_on();
    questions(image, len);
    windows(image, len);
    spans(image, len);
    many_questions(image, len);
    without_rank();
    kept(image, len);
    from_bits();
    prefix_sums();
    sparse();
    sizes(20, 4, 4, 3, true);
    sizes(0, 1, 0, 0, true);
    sizes(UINT64_MAX, 1, 1, 0, true);
    sizes(16777216, 16777216, 1, 0, true);
    sizes(131072, 65536, 2, 131071, true);
    sizes(157680000, 50000, 50000, 3153, true);
    sizes(157680000, 50000, 49, 3153000, false);
    sized(20, 4, true);
    sized(157680000, 50000, true);
    sized(157680000, 50000, false);
    puts("C: all as expected");
    return 0;
}
