/* libFuzzer target: the C export against the implementation of this folder, byte for byte.
   Coverage is taken from the latter, which is built for it; see `run`. */
#include <stddef.h>
#include <stdint.h>
#include <stdio.h>
#include <stdlib.h>
#include <string.h>

int64_t gekumosari_session(const uint8_t *text, size_t len, uint8_t *out, size_t room);
int64_t harness_session(const uint8_t *text, size_t len, uint8_t *out, size_t room);

enum { ROOM = 458808, PAINT = 0xA5 }; /* GEKUMOSARI_MOST_BYTES */

static uint8_t expected[ROOM], lent[ROOM];

static void require(int good, const char *what) {
    if (!good) {
        fprintf(stderr, "differs: %s\n", what);
        abort();
    }
}

/* The export's answer with this much room is `length`, and no byte past it is changed, up to one past the room. */
static void answers(const uint8_t *text, size_t len, size_t room, int64_t length, size_t painted) {
    memset(lent, PAINT, painted);
    require(gekumosari_session(text, len, lent, room) == length, "the length");
    size_t written = length < 0 ? 0 : (size_t)length;
    require(memcmp(lent, expected, written) == 0, "the answer");
    for (size_t at = written; at < painted; at++)
        require(lent[at] == PAINT, "a byte that is not written to");
}

int LLVMFuzzerTestOneInput(const uint8_t *text, size_t len) {
    int64_t length = harness_session(text, len, expected, ROOM);
    require(length >= 0 && length <= ROOM, "the room");
    size_t past = (size_t)length + 64 < ROOM ? (size_t)length + 64 : ROOM;
    /* Room for any answer to a text of this length, then just more than this answer, just enough, and a byte too few. */
    size_t most = 7 * len + 56 < ROOM ? 7 * len + 56 : ROOM;
    answers(text, len, most, length, most);
    answers(text, len, past, length, past);
    answers(text, len, (size_t)length, length, past);
    if (length > 0)
        answers(text, len, (size_t)length - 1, -12, past);
    return 0;
}
