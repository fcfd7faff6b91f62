// Fuzzes the day parser: every event of the input, against a parser written from docs/FORMAT.md alone.
#include "giltzomer.h"

#include <stdio.h>
#include <stdlib.h>
#include <string.h>

static const uint64_t CANARY = 0xc0ffee0ddba11;

static void fail(const char *what, size_t at) {
    fprintf(stderr, "parser: %s, at byte %zu\n", what, at);
    abort();
}

static uint64_t number_at(const uint8_t *bytes) {
    uint64_t number = 0;
    for (int i = 4; i >= 1; i--)
        number = number * 256 + bytes[i];
    return number;
}

// The first event in eleven numbers, and how many bytes it takes; 0 if it ends early or is of unknown kind.
static size_t expected(const uint8_t *bytes, size_t length, uint64_t *event) {
    static const size_t least[] = {6, 5, 3};
    if (length == 0 || bytes[0] > 2 || length < least[bytes[0]])
        return 0;
    size_t taken = least[bytes[0]] + (bytes[0] == 0 ? bytes[5] : 0);
    if (length < taken)
        return 0;
    memset(event, 0, EVENT_LENGTH * sizeof *event);
    event[0] = bytes[0];
    if (bytes[0] == 2) {
        event[1] = bytes[1];
        event[2] = bytes[2];
        return taken;
    }
    event[1] = number_at(bytes);
    if (bytes[0] == 0) {
        event[2] = bytes[5];
        for (size_t i = 0; i < 8 && i < bytes[5]; i++)
            event[3 + i] = bytes[6 + i];
    }
    return taken;
}

// Reads into the middle of canaries; of a slice that is too short nothing may be written.
static size_t read_event(const uint8_t *bytes, size_t length, uint64_t *event, size_t room, size_t at) {
    uint64_t guarded[EVENT_LENGTH + 4];
    for (size_t i = 0; i < EVENT_LENGTH + 4; i++)
        guarded[i] = CANARY;
    size_t taken = giltzomer_next_event(bytes, length, guarded + 1, room);
    size_t written = taken == 0 ? 0 : EVENT_LENGTH;
    for (size_t i = 0; i < EVENT_LENGTH + 4; i++)
        if ((i < 1 || i > written) && guarded[i] != CANARY)
            fail("a number outside the event was written", at);
    memcpy(event, guarded + 1, EVENT_LENGTH * sizeof *event);
    return taken;
}

int LLVMFuzzerTestOneInput(const uint8_t *bytes, size_t length) {
    size_t at = 0;
    for (;;) {
        uint64_t wanted[EVENT_LENGTH], event[EVENT_LENGTH];
        // A copy of its own size, so that the address sanitizer sees a read behind it.
        size_t left = length - at;
        uint8_t *rest = malloc(left ? left : 1);
        memcpy(rest, bytes + at, left);
        size_t taken = expected(rest, left, wanted);
        if (read_event(rest, left, event, EVENT_LENGTH + 1, at) != taken)
            fail("another count of bytes was taken", at);
        if (taken && memcmp(event, wanted, sizeof event) != 0)
            fail("another event was read", at);
        if (read_event(rest, left, event, EVENT_LENGTH - 1, at) != 0)
            fail("an event was read into too few numbers", at);
        free(rest);
        if (taken == 0)
            return 0;
        at += taken;
    }
}
