/* How much stack each function of the library needs, as measured: a line `| ef_push | 123 |` for each, in bytes. `tools/datasheet --stack` builds and runs it.
 *
 * A call runs on a stack of its own that was filled with one byte before; the deepest byte that is another one after it was touched. It is done twice, with
 * different bytes, since a call may happen to write the one. What an empty call touches is taken off, so the return address and the arguments of the call count. Each
 * call is made once before, on the stack of the program: what the dynamic linker does at the first call of memcpy or memset does not count.
 *
 * The inputs: records of up to 16,777,216 values with blocks that overflow in both indexes, with the rank index and without, values that share their high bits, one
 * with few of the declared values, 32 windows; the same from bits and from items. What makes an image has a buffer of the limit, then one of the image's length, then a word less. Each
 * function is accepted at least once, and refused at least once. */
#define _XOPEN_SOURCE 700
#include "elias_fano.h"
#include <stdio.h>
#include <stdlib.h>
#include <string.h>
#include <ucontext.h>

static void must(bool ok, const char *what) {
    if (!ok) {
        fprintf(stderr, "wrong: %s\n", what);
        exit(1);
    }
}

/* ---- a call: its arguments, and whether it was refused */

static struct {
    const uint64_t *image; /* and its words */
    size_t len;
    uint64_t x, y;         /* values, numbers, places */
    bool rank;
    const uint64_t *words; /* arguments of many questions, windows, bits, items */
    size_t count;
    size_t num_bits;
    EfBuilder builder;
    uint64_t *buffer; /* what is written to */
    size_t room;
} in;

static bool refused;
static EfPushed pushed;

#define IMAGE in.image, in.len
#define VECTOR in.image, in.len, in.num_bits, in.rank
#define WORDS in.words, in.count
#define BUFFER in.buffer, in.room

#define ANSWERS(name, ...) \
    static void call_##name(void) { refused = name(__VA_ARGS__).kind == EF_REFUSED; }
#define PUSHES(name, ...) \
    static void call_##name(void) { \
        pushed = name(__VA_ARGS__); \
        refused = pushed.refusal != 0; \
    }
#define OPENS(name, ...) \
    static void call_##name(void) { refused = name(__VA_ARGS__) != 0; }

#define FUNCTIONS(answers, pushes, opens) \
    answers(ef_limit, in.x, in.y, in.rank) \
    pushes(ef_new, in.x, in.y, BUFFER) \
    pushes(ef_push, in.builder, in.x, BUFFER) \
    pushes(ef_resume, in.builder, BUFFER) \
    answers(ef_build, in.builder, in.rank, BUFFER) \
    answers(ef_from_bits, WORDS, in.num_bits, in.rank, BUFFER) \
    opens(ef_open, IMAGE) \
    answers(ef_select, IMAGE, in.x) \
    answers(ef_delta, IMAGE, in.x) \
    answers(ef_rank, IMAGE, in.x) \
    answers(ef_predecessor, IMAGE, in.x) \
    answers(ef_successor, IMAGE, in.x) \
    answers(ef_binsearch, IMAGE, in.x) \
    answers(ef_binsearch_range, IMAGE, 0, in.y, in.x) \
    answers(ef_len, IMAGE) \
    answers(ef_is_empty, IMAGE) \
    answers(ef_universe, IMAGE) \
    answers(ef_has_rank, IMAGE) \
    answers(ef_read_from, IMAGE, in.x, BUFFER) \
    answers(ef_count_in_windows, IMAGE, WORDS, in.x, in.y) \
    answers(ef_compare, IMAGE, WORDS, BUFFER) \
    answers(ef_selects, IMAGE, WORDS, BUFFER) \
    answers(ef_deltas, IMAGE, WORDS, BUFFER) \
    answers(ef_ranks, IMAGE, WORDS, BUFFER) \
    answers(ef_predecessors, IMAGE, WORDS, BUFFER) \
    answers(ef_successors, IMAGE, WORDS, BUFFER) \
    answers(ef_binsearches, IMAGE, WORDS, BUFFER) \
    answers(ef_sums_from_slice, WORDS, BUFFER) \
    answers(ef_sums_access, IMAGE, in.x) \
    answers(ef_sums_len, IMAGE) \
    answers(ef_sums_read, IMAGE, in.x, BUFFER) \
    answers(ef_sarray_from_bits, WORDS, in.num_bits, in.rank, BUFFER) \
    opens(ef_sarray_open, VECTOR) \
    answers(ef_sarray_access, VECTOR, in.x) \
    answers(ef_sarray_rank1, VECTOR, in.x) \
    answers(ef_sarray_select1, VECTOR, in.x) \
    answers(ef_sarray_predecessor1, VECTOR, in.x) \
    answers(ef_sarray_successor1, VECTOR, in.x) \
    answers(ef_sarray_accesses, VECTOR, WORDS, BUFFER) \
    answers(ef_sarray_rank1s, VECTOR, WORDS, BUFFER) \
    answers(ef_sarray_select1s, VECTOR, WORDS, BUFFER) \
    answers(ef_sarray_predecessor1s, VECTOR, WORDS, BUFFER) \
    answers(ef_sarray_successor1s, VECTOR, WORDS, BUFFER)

FUNCTIONS(ANSWERS, PUSHES, OPENS)

typedef void Call(void);

#define LINE(name, ...) {#name, call_##name, 0, false, false},

static struct {
    const char *name;
    Call *call;
    size_t deepest;
    bool was_accepted, was_refused;
} functions[] = {FUNCTIONS(LINE, LINE, LINE)};

/* ---- a painted stack */

enum { STACK = 1 << 18, OWN = 1 << 10 };

static _Alignas(64) unsigned char stack[STACK];
static ucontext_t here, there;
static Call *running;

static void nothing(void) {}

/* What brings the call back runs above the bytes of its own, and so touches none that the call is measured by. */
static void on_stack(void) {
    volatile unsigned char own[OWN];
    own[0] = 0;
    running();
    (void)own[0];
}

static size_t touched(Call *call, int byte) {
    memset(stack, byte, STACK);
    must(getcontext(&there) == 0, "a context");
    there.uc_stack.ss_sp = stack;
    there.uc_stack.ss_size = STACK;
    there.uc_link = &here;
    makecontext(&there, on_stack, 0);
    running = call;
    must(swapcontext(&here, &there) == 0, "another stack");
    size_t free_bytes = 0;
    while (stack[free_bytes] == byte) {
        free_bytes++;
    }
    must(free_bytes > STACK / 4, "a stack that is long enough");
    return STACK - free_bytes;
}

/* What ef_build makes its image of stands here, and is put back before each call. */
static const uint64_t *started;
static size_t started_len;

static void restart(void) {
    if (started != NULL) {
        memcpy(in.buffer, started, started_len * sizeof *started);
    }
}

static void measure(Call *call) {
    static const int bytes[] = {0xa5, 0x5a};
    static size_t empty;
    if (empty == 0) {
        empty = touched(nothing, bytes[0]);
    }
    size_t i = 0;
    while (functions[i].call != call) {
        i++;
    }
    restart();
    call();
    functions[i].was_refused |= refused;
    functions[i].was_accepted |= !refused;
    for (size_t b = 0; b < 2; b++) {
        restart();
        size_t needed = touched(call, bytes[b]) - empty;
        if (functions[i].deepest < needed) {
            functions[i].deepest = needed;
        }
    }
}

/* ---- memory, and lists of times */

enum { GAP = 64513 }; /* as many zeros between the first and the last of 1,024 ones make their block overflow, and the other way round */

static uint64_t *words(size_t len) {
    uint64_t *w = calloc(len, sizeof *w);
    must(w != NULL, "memory");
    return w;
}

/* n times below `end`. The high bits of a time are those above its lowest low_len. `steps` times over, GAP values of the high bits are passed and GAP times share the next one, with
 * rising low bits; the rest are in equal gaps. */
static uint64_t *stairs(uint64_t end, size_t n, unsigned low_len, size_t steps) {
    uint64_t *times = words(n), high = 0;
    size_t k = 1; /* the first time is 0 */
    for (size_t step = 0; step < steps; step++) {
        high += GAP;
        for (size_t i = 0; i < GAP; i++) {
            times[k++] = (high << low_len) + (((uint64_t)i << low_len) / GAP);
        }
    }
    uint64_t from = (high + 1) << low_len, gap = (end - from) / (n - k);
    for (size_t rest = n - k, i = 0; i < rest; i++) {
        times[k++] = from + i * gap;
    }
    return times;
}

/* ---- the record */

static const uint64_t no_words[1];

/* The length of the image that is made. */
static size_t writing(uint64_t u, uint64_t n, const uint64_t *times, size_t m, bool rank, uint64_t *image, size_t room) {
    in.x = u, in.y = n, in.rank = rank, in.buffer = image, in.room = room;
    measure(call_ef_limit);
    in.room = 5;
    measure(call_ef_new);
    in.room = room;
    measure(call_ef_new);
    EfPushed p = ef_new(u, n, image, room);
    must(p.refusal == 0, "a start");
    for (size_t k = 0; k < m; k++) {
        if (k % (m / 50 + 1) == 0) {
            in.builder = p.builder, in.x = times[k];
            measure(call_ef_push);
            in.x = u;
            measure(call_ef_push);
        }
        p = ef_push(p.builder, times[k], image, room);
        must(p.refusal == 0, "a push");
    }
    in.builder = p.builder, in.x = 0; /* below the last */
    measure(call_ef_push);
    if (m == n) {
        in.x = u - 1;
        measure(call_ef_push);
    }
    uint64_t *copy = words(room);
    memcpy(copy, image, room * sizeof *copy);
    measure(call_ef_resume);
    in.room = 5;
    measure(call_ef_resume);
    in.room = room;
    started = copy, started_len = room;
    measure(call_ef_build);
    restart();
    EfAnswer built = ef_build(p.builder, rank, image, room);
    must(built.kind == EF_VALUE, "a build");
    in.room = built.value;
    measure(call_ef_build);
    in.room--;
    measure(call_ef_build);
    in.builder.last ^= 1;
    measure(call_ef_build);
    restart();
    started = NULL;
    free(copy);
    must(ef_build(p.builder, rank, image, room).value == built.value, "the same build");
    return built.value;
}

static Call *const one_question[] = {call_ef_select, call_ef_delta, call_ef_rank, call_ef_predecessor, call_ef_successor, call_ef_binsearch, call_ef_binsearch_range, call_ef_read_from};
static Call *const of_header[] = {call_ef_open, call_ef_len, call_ef_is_empty, call_ef_universe, call_ef_has_rank};
static Call *const many_questions[] = {call_ef_selects, call_ef_deltas, call_ef_ranks, call_ef_predecessors, call_ef_successors, call_ef_binsearches};

#define MEASURE_ALL(calls) \
    for (size_t call_number = 0; call_number < sizeof(calls) / sizeof *(calls); call_number++) { \
        measure((calls)[call_number]); \
    }

enum { WINDOWS = 64, ASKED = 4096 };

static uint64_t windows[WINDOWS + 2], asked[ASKED], out[2 * ASKED];

static void set_windows(void) {
    for (uint64_t i = 0; i <= WINDOWS; i += 2) {
        windows[i] = (WINDOWS - i) * 9000; /* in falling order, some overlap */
        windows[i + 1] = windows[i] + (i % 8 == 0 ? 20000 : 7000);
    }
}

/* Values and numbers around the values of a record, and from the universe on. */
static size_t arguments(uint64_t u, const uint64_t *times, size_t m, size_t some) {
    size_t count = 0;
    for (size_t i = 0; i < some; i++) {
        size_t k = i * m / some;
        asked[count++] = times[k];
        asked[count++] = times[k] + 1;
        asked[count++] = k;
    }
    asked[count++] = u - 1;
    asked[count++] = u;
    asked[count++] = UINT64_MAX;
    return count;
}

static void asking(uint64_t u, const uint64_t *times, size_t m, const uint64_t *image, size_t len, size_t some) {
    in.image = image, in.len = len, in.buffer = out, in.room = 2 * ASKED;
    MEASURE_ALL(of_header)
    in.count = arguments(u, times, m, ASKED / 3 - 1), in.words = asked;
    MEASURE_ALL(many_questions)
    size_t count = arguments(u, times, m, some);
    for (size_t i = 0; i < count; i++) {
        in.x = asked[i], in.y = m;
        MEASURE_ALL(one_question)
        in.words = windows, in.count = WINDOWS, in.y = u;
        measure(call_ef_count_in_windows);
        measure(call_ef_compare);
    }
    in.room = 1;
    measure(call_ef_compare);
    in.room = 2 * ASKED;
    in.x = 0, in.y = m + 1;
    measure(call_ef_binsearch_range);
    in.count = WINDOWS + 2;
    measure(call_ef_count_in_windows);
    in.len = len - 1; /* no image */
    MEASURE_ALL(of_header)
    MEASURE_ALL(many_questions)
    MEASURE_ALL(one_question)
    measure(call_ef_count_in_windows);
    measure(call_ef_compare);
    in.image = no_words, in.len = 0;
    MEASURE_ALL(of_header)
    MEASURE_ALL(many_questions)
    MEASURE_ALL(one_question)
}

static void record(uint64_t u, uint64_t n, size_t m, uint64_t end, unsigned low_len, size_t steps, bool rank, size_t some) {
    uint64_t *times = stairs(end, m, low_len, steps);
    EfAnswer limit = ef_limit(u, n, rank);
    must(limit.kind == EF_VALUE, "a limit");
    uint64_t *image = words(limit.value);
    size_t len = writing(u, n, times, m, rank, image, limit.value);
    must(steps == 0 || (image[4] != 0 && (!rank || image[5] != 0)), "an overflow in each index");
    asking(u, times, m, image, len, some);
    /* the last word changed: what is read of an image that is refused */
    image[len - 1] ^= 1;
    in.image = image, in.len = len;
    MEASURE_ALL(of_header)
    free(times);
    free(image);
}

static void refused_settings(void) {
    in.x = 20, in.y = 0, in.buffer = out, in.room = 2 * ASKED;
    measure(call_ef_limit);
    measure(call_ef_new);
    in.y = 16777217;
    measure(call_ef_limit);
    measure(call_ef_new);
}

/* ---- bits, and the sparse vector over them */

static Call *const of_vector[] = {call_ef_sarray_open, call_ef_sarray_access, call_ef_sarray_rank1, call_ef_sarray_select1, call_ef_sarray_predecessor1, call_ef_sarray_successor1};
static Call *const many_of_vector[] = {call_ef_sarray_accesses, call_ef_sarray_rank1s, call_ef_sarray_select1s, call_ef_sarray_predecessor1s, call_ef_sarray_successor1s};

/* The bits of `dense` ones in a row and `sparse` ones in equal gaps after them. */
static void vector(size_t num_bits, size_t dense, size_t sparse, bool rank, bool both, size_t some) {
    size_t len = num_bits / 64 + 1, ones = dense + sparse;
    uint64_t *bits = words(len), *places = words(ones);
    for (size_t k = 0; k < ones; k++) {
        places[k] = k < dense ? k : dense + (k - dense) * ((num_bits - dense) / sparse);
        bits[places[k] / 64] |= (uint64_t)1 << places[k] % 64;
    }
    EfAnswer limit = ef_limit(num_bits, ones, rank);
    must(limit.kind == EF_VALUE, "a limit of bits");
    uint64_t *image = words(limit.value);
    in.words = bits, in.count = len, in.num_bits = num_bits, in.rank = rank, in.buffer = image, in.room = limit.value;
    measure(call_ef_from_bits);
    measure(call_ef_sarray_from_bits);
    in.room = ef_from_bits(bits, len, num_bits, rank, image, limit.value).value;
    measure(call_ef_from_bits);
    measure(call_ef_sarray_from_bits);
    in.room--;
    measure(call_ef_from_bits);
    measure(call_ef_sarray_from_bits);
    in.count = 0;
    measure(call_ef_from_bits);
    measure(call_ef_sarray_from_bits);
    EfAnswer made = ef_from_bits(bits, len, num_bits, rank, image, limit.value);
    must(made.kind == EF_VALUE && (!both || (image[4] != 0 && (!rank || image[5] != 0))), "an image of bits");

    in.image = image, in.len = made.value, in.buffer = out, in.room = 2 * ASKED;
    in.count = arguments(num_bits, places, ones, ASKED / 3 - 1), in.words = asked;
    MEASURE_ALL(many_of_vector)
    size_t count = arguments(num_bits, places, ones, some);
    for (size_t i = 0; i < count; i++) {
        in.x = asked[i];
        MEASURE_ALL(of_vector)
    }
    in.num_bits++; /* no vector */
    MEASURE_ALL(of_vector)
    MEASURE_ALL(many_of_vector)
    in.num_bits--, in.len--;
    MEASURE_ALL(of_vector)
    in.len = 0; /* a vector of zeros */
    MEASURE_ALL(of_vector)
    MEASURE_ALL(many_of_vector)
    free(bits);
    free(places);
    free(image);
}

/* ---- items */

/* n items, one block in a hundred of large ones, so that it overflows. */
static void items(size_t n, size_t some) {
    uint64_t *item = words(n), sum = 0;
    for (size_t i = 0; i < n; i++) {
        item[i] = i / 1024 % 100 == 50 ? 100000 : i % 3;
        sum += item[i];
    }
    EfAnswer limit = ef_limit(sum + 1, n, false);
    must(limit.kind == EF_VALUE, "a limit of items");
    uint64_t *image = words(limit.value);
    in.words = item, in.count = n, in.buffer = image, in.room = limit.value;
    measure(call_ef_sums_from_slice);
    in.room = ef_sums_from_slice(item, n, image, limit.value).value;
    measure(call_ef_sums_from_slice);
    in.room--;
    measure(call_ef_sums_from_slice);
    EfAnswer made = ef_sums_from_slice(item, n, image, limit.value);
    must(made.kind == EF_VALUE && (n < 51 * 1024 || image[4] != 0), "an image of items");
    in.image = image, in.len = made.value, in.buffer = out, in.room = 2 * ASKED;
    for (size_t i = 0; i <= some; i++) {
        in.x = i * n / some;
        measure(call_ef_sums_access);
        measure(call_ef_sums_len);
        measure(call_ef_sums_read);
    }
    in.len--;
    measure(call_ef_sums_access);
    measure(call_ef_sums_len);
    measure(call_ef_sums_read);
    item[0] = UINT64_MAX;
    in.words = item, in.count = n;
    measure(call_ef_sums_from_slice);
    free(item);
    free(image);
}

int main(void) {
    set_windows();
    refused_settings();
    for (int choice = 0; choice < 2; choice++) {
        bool rank = choice == 1;
        record(20, 4, 4, 20, 2, 0, rank, 4);
        record(300000000, 300000, 300000, 300000000, 9, 4, rank, 12); /* low bits, an overflow in both indexes */
        record(500000, 300000, 300000, 500000, 0, 4, rank, 12);       /* no low bits */
        record(157680000, 50000, 50000, 157680000, 11, 0, rank, 12);  /* no overflow */
        record(300000000, 300000, 40, 300000000, 9, 0, rank, 12);     /* few of the declared */
        vector(20, 3, 2, rank, false, 4);
        vector(20000000, 197000, 3000, rank, true, 12);
        vector(500000, 260000, 2000, rank, false, 12);
    }
    record(UINT64_MAX, 1000000, 1000000, ((uint64_t)1 << 44) + 1000000, 44, 0, true, 12); /* all share their high bits */
    record((uint64_t)1 << 36, 16777216, 16777216, (uint64_t)1 << 36, 12, 100, true, 1);   /* the most */
    vector((size_t)1 << 30, 16700000, 77216, true, true, 1);
    items(3, 3);
    items(300000, 30);
    items(16777216, 2);
    for (size_t i = 0; i < sizeof functions / sizeof *functions; i++) {
        must(functions[i].was_accepted && functions[i].was_refused, functions[i].name);
        printf("| %s | %zu |\n", functions[i].name, functions[i].deepest);
    }
    return 0;
}
