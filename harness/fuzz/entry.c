// Fuzzes the entry: a day file's events, among them damage to the slice, and after each event what must hold of answer and slice.
#include "giltzomer.h"

#include <stdio.h>
#include <stdlib.h>
#include <string.h>

// Numbers behind the queue, which belong to the slice and stay, and canaries around it, which no call may touch.
enum { BEHIND = 8, GUARD = 64, LENGTH = QUEUE_LENGTH + BEHIND, MOST_STEPS = 200 };

static const uint64_t CANARY = 0xc0ffee0ddba11;

static uint64_t guarded[GUARD + LENGTH + GUARD];
static uint64_t *const queue = guarded + GUARD;
static uint64_t before[LENGTH];

struct section {
    size_t at, width, most, count_at;
};

static const struct section sections[] = {
    {8, CHANGE_WIDTH, 4096, 2},      {40968, CHANGE_WIDTH, 64, 3}, {41608, CHANGE_WIDTH, 1024, 4},
    {51848, VERDICT_WIDTH, 128, 5}, {54408, RUN_WIDTH, 16, 6},
};

// The bytes of the input that are left.
struct input {
    const uint8_t *bytes;
    size_t length;
};

static uint8_t take(struct input *in) {
    if (in->length == 0)
        return 0;
    in->length--;
    return *in->bytes++;
}

// A byte says a small number, one at a limit, or one beside what stands there.
static uint64_t take_number(struct input *in, uint64_t now) {
    static const uint64_t limits[] = {127,  128,        129,         1023, 1024, 1025, 4095, 4096, 4097, 0xfffffffe,
                                      0xffffffff, 0x100000000, ~0ull, 960,  961,  4032, 4033, 200,  255,  1000};
    uint8_t byte = take(in);
    if (byte < 200)
        return byte;
    if (byte < 200 + sizeof limits / sizeof *limits)
        return limits[byte - 200];
    return byte & 1 ? now + 1 : now - 1;
}

static void fail(const char *what, struct answer a) {
    fprintf(stderr, "entry: %s (answer %llu at %llu)\n", what, (unsigned long long)a.refusal,
            (unsigned long long)a.value);
    abort();
}

// Most of the time goes here: one loop without a branch, and its reads are known to be inside the slice.
__attribute__((no_sanitize("address"))) static int all_zero(const uint64_t *from, const uint64_t *to) {
    uint64_t bits = 0;
    for (; from < to; from++)
        bits |= *from;
    return bits == 0;
}

static int touches(const uint64_t *change, uint64_t part) {
    for (uint64_t i = 0; i < change[1]; i++)
        if (change[2 + i] == part)
            return 1;
    return 0;
}

static uint64_t landed_of(uint64_t part) {
    uint64_t count = 0;
    for (uint64_t i = 0; i < queue[2]; i++)
        count += touches(queue + 8 + CHANGE_WIDTH * i, part);
    return count;
}

static int tidy_record(const uint64_t *record, size_t width) {
    if (width == CHANGE_WIDTH)
        return record[1] <= 8 && all_zero(record + 2 + record[1], record + CHANGE_WIDTH);
    if (record[2] < 1 || record[2] > 16 || !all_zero(record + 3 + record[2], record + RUN_WIDTH))
        return 0;
    return record[1] == landed_of(record[0]) && (width == RUN_WIDTH || record[RUN_WIDTH] <= 1);
}

// Every place that no count reaches is 0, and every record is written as a queue writes it.
static int canonical(void) {
    for (size_t s = 0; s < sizeof sections / sizeof *sections; s++) {
        const struct section *x = sections + s;
        const uint64_t *base = queue + x->at;
        uint64_t count = queue[x->count_at];
        if (count > x->most || !all_zero(base + x->width * count, base + x->width * x->most))
            return 0;
        for (uint64_t i = 0; i < count; i++)
            if (!tidy_record(base + x->width * i, x->width))
                return 0;
    }
    return 1;
}

static void check_taken(uint64_t kind, struct answer a) {
    if (a.value != queue[6])
        fail("the answer is not the count of running", a);
    if (!canonical())
        fail("the queue is not canonical", a);
    if (queue[0] != before[0] || queue[1] != before[1])
        fail("the config changed", a);
    uint64_t held = queue[2] + queue[3] + queue[4], was = before[2] + before[3] + before[4];
    if (held != was + (kind == 0) - (kind == 1))
        fail("changes were lost or made", a);
    if (queue[2] < before[2] || queue[4] < before[4] || queue[7] < before[7])
        fail("landed, rejected or requested went back", a);
    uint64_t most = before[6] > queue[0] ? before[6] : queue[0];
    if (queue[6] > most)
        fail("more runs than benches", a);
}

static void check_refused(size_t length, struct answer a) {
    static const uint64_t most[] = {0, QUEUE_LENGTH, 0, 1, 0, 0xffffffff, 8, 0xffffffff, 0xffffffff, 2, 1};
    if (a.refusal < 1 || a.refusal > 10 || a.value > most[a.refusal])
        fail("there is no such refusal", a);
    if ((length < QUEUE_LENGTH) != (a.refusal == 1 && a.value == length))
        fail("a short slice is refused by its length", a);
    if (memcmp(queue, before, sizeof before) != 0)
        fail("a refusal changed the slice", a);
}

static void check_guards(struct answer a) {
    for (size_t i = 0; i < GUARD; i++)
        if (guarded[i] != CANARY || guarded[GUARD + LENGTH + i] != CANARY)
            fail("a number outside the slice was written", a);
    if (memcmp(queue + QUEUE_LENGTH, before + QUEUE_LENGTH, BEHIND * sizeof *queue) != 0)
        fail("a number behind the queue changed", a);
}

static void check_answer(size_t length, const uint64_t *event, size_t event_length, struct answer a) {
    check_guards(a);
    if (a.refusal == 0 && length >= QUEUE_LENGTH && event_length >= EVENT_LENGTH)
        check_taken(event[0], a);
    else
        check_refused(length, a);
}

static void apply(size_t length, const uint64_t *event, size_t event_length) {
    // A copy of its own size, so that the address sanitizer sees what is copied from behind it.
    uint64_t *lent = malloc(event_length * sizeof *lent + 1);
    memcpy(lent, event, event_length * sizeof *lent);
    memcpy(before, queue, sizeof before);
    struct answer a = giltzomer_apply(queue, length, lent, event_length);
    check_answer(length, event, event_length, a);
    struct answer b = giltzomer_apply(before, length, lent, event_length);
    if (a.refusal != b.refusal || a.value != b.value || memcmp(queue, before, sizeof before) != 0)
        fail("the same event gives something else", a);
    if (memcmp(lent, event, event_length * sizeof *lent) != 0)
        fail("the event changed", a);
    free(lent);
}

static void open_queue(struct input *in) {
    uint64_t benches = take(in), depth = take(in);
    for (size_t i = 0; i < sizeof guarded / sizeof *guarded; i++)
        guarded[i] = CANARY;
    memcpy(before, queue, sizeof before);
    check_refused(QUEUE_LENGTH - 1, giltzomer_open(queue, QUEUE_LENGTH - 1, benches, depth));
    struct answer a = giltzomer_open(queue, LENGTH, benches, depth);
    check_guards(a);
    if (a.refusal != 0) {
        check_refused(LENGTH, a);
        a = giltzomer_open(queue, LENGTH, 1 + benches % 16, 1 + depth % 16);
    }
    if (a.refusal != 0 || a.value != 0 || !canonical())
        fail("opening goes wrong", a);
}

// One number of a counter or of a record becomes another.
static void poke(struct input *in) {
    uint8_t where = take(in), record = take(in), field = take(in);
    size_t at = field % 8;
    if (where % 6 < 5) {
        const struct section *x = sections + where % 6;
        // From the front, or from the last that the count reaches.
        uint64_t i = where & 128 ? queue[x->count_at] - 1 - record : record;
        at = x->at + x->width * (i % x->most) + field % x->width;
    }
    queue[at] = take_number(in, queue[at]);
}

// A section of changes holds so many, each of one part.
static void fill(struct input *in) {
    const struct section *x = sections + take(in) % 3;
    uint8_t parts = take(in);
    uint64_t count = take_number(in, queue[x->count_at]);
    if (count > x->most)
        return;
    for (uint64_t i = queue[x->count_at]; i < count; i++) {
        uint64_t *record = queue + x->at + CHANGE_WIDTH * i;
        record[0] = 1000 * x->count_at + i;
        record[1] = 1;
        record[2] = i % (parts % PARTS + 1);
    }
    queue[x->count_at] = count;
}

// Every place of a section that no count reaches holds something, also the unused parts or numbers of its records.
static void litter(struct input *in) {
    const struct section *x = sections + take(in) % 5;
    uint64_t number = take_number(in, 0), count = queue[x->count_at];
    size_t count_field = x->width == CHANGE_WIDTH ? 1 : 2;
    size_t end = x->width == CHANGE_WIDTH ? CHANGE_WIDTH : RUN_WIDTH;
    for (uint64_t i = 0; i < x->most; i++) {
        uint64_t *record = queue + x->at + x->width * i;
        uint64_t used = i < count ? count_field + 1 + record[count_field] % x->width : 0;
        for (size_t j = used; j < (i < count ? end : x->width); j++)
            record[j] = number;
    }
}

// An event of any eleven numbers.
static void apply_numbers(struct input *in) {
    uint64_t event[EVENT_LENGTH];
    for (size_t i = 0; i < EVENT_LENGTH; i++)
        event[i] = take_number(in, queue[40968]);
    apply(LENGTH, event, EVENT_LENGTH);
}

// An event that may be too short or longer than is needed, on a slice that may be too short.
static void apply_lengths(struct input *in) {
    uint64_t event[EVENT_LENGTH + 2] = {0};
    size_t event_length = take(in) % (EVENT_LENGTH + 3), less = take(in);
    event[0] = take(in);
    event[1] = take_number(in, queue[40968]);
    event[2] = take_number(in, 0);
    apply(LENGTH - less, event, event_length);
}

static int apply_next(struct input *in) {
    uint64_t event[EVENT_LENGTH];
    size_t taken = giltzomer_next_event(in->bytes, in->length, event, EVENT_LENGTH);
    if (taken == 0)
        return 0;
    in->bytes += taken;
    in->length -= taken;
    apply(LENGTH, event, EVENT_LENGTH);
    return 1;
}

// Bytes 3 to 7 in the place of an event's kind are what a day file does not have.
static int step(struct input *in) {
    uint8_t kind = in->bytes[0];
    if (kind < 3)
        return apply_next(in);
    take(in);
    switch (kind) {
    case 3: poke(in); return 1;
    case 4: fill(in); return 1;
    case 5: apply_numbers(in); return 1;
    case 6: apply_lengths(in); return 1;
    case 7: litter(in); return 1;
    default: return 0;
    }
}

int LLVMFuzzerTestOneInput(const uint8_t *bytes, size_t length) {
    struct input in = {bytes, length};
    open_queue(&in);
    for (int i = 0; i < MOST_STEPS && in.length > 0 && step(&in); i++) {
    }
    return 0;
}
