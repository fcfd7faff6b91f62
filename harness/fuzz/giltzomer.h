// The C interface of the proved queue (crate capi), and the places of docs/FORMAT.md that the fuzzers read.
#ifndef GILTZOMER_H
#define GILTZOMER_H

#include <stddef.h>
#include <stdint.h>

struct answer {
    uint64_t refusal; // its number, or 0
    uint64_t value;   // its place, or how many runs are running
};

struct answer giltzomer_open(uint64_t *queue, size_t length, uint64_t benches, uint64_t depth);
struct answer giltzomer_apply(uint64_t *queue, size_t length, const uint64_t *event, size_t event_length);
size_t giltzomer_next_event(const uint8_t *bytes, size_t length, uint64_t *event, size_t event_length);

enum {
    QUEUE_LENGTH = 54712,
    EVENT_LENGTH = 11,
    PARTS = 64,
    CHANGE_WIDTH = 10,
    RUN_WIDTH = 19,
    VERDICT_WIDTH = 20,
};

#endif
