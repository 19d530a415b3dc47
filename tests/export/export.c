/* The export as C sees it: each check is one line of output, and the program fails if one of them does. Run by `run`. */
#include "gekumosari.h"

#include <stdio.h>
#include <stdlib.h>
#include <string.h>

/* LONGEST_TEXT and MOST_BYTES are the library's own constants, from the sources of its crates. */
_Static_assert(GEKUMOSARI_LONGEST_TEXT == LONGEST_TEXT, "the header's longest text is not the library's");
_Static_assert(GEKUMOSARI_MOST_BYTES == MOST_BYTES, "the header's most bytes are not the library's");

/* Document 01's plan P, and the steps and the whole output of P2. */
#define PLAN \
    "window=10\nrounds=100\nlast=1000\njobs=1\nmin=2\nmax=4\nrelease=0\ndeadline=10\n" \
    "bounds=2\nbound=ns1,ts1,12\nbound=ts1,ns1,-8\n"
#define STEPS \
    "ask=offer\nstart=3\nfinish=7\nask=offer\nstart=16\nstart=auto\nfinish=16\nfinish=13\nask=offer\n"
#define ANSWERS \
    "offer=0,6\nstarted=1,1,3\nfinal=1,1,7\noffer=11,15\nrefused=8,0\nstarted=2,1,11\n" \
    "refused=9,0\nfinal=2,1,13\noffer=20,23\n"

enum { PAST = 64, PAINT = 0xA5 };

static int failed;

static void check(int good, const char *what) {
    printf("%s: %s\n", good ? "ok" : "FAILED", what);
    failed |= !good;
}

static uint8_t *bytes(size_t length) {
    /* Of just this length, so that the sanitizer sees a byte before or past it. */
    uint8_t *at = malloc(length ? length : 1);
    if (!at) {
        perror("malloc");
        exit(2);
    }
    return at;
}

/* Whether a session in a slice of `room` bytes is answered by `answer`, and every other byte of it is kept; no answer is -12. */
static int answers(const uint8_t *text, size_t length, size_t room, const char *answer) {
    uint8_t *session = bytes(length);
    uint8_t *out = bytes(room);
    memcpy(session, text, length);
    memset(out, PAINT, room);
    int64_t expected = answer ? (int64_t)strlen(answer) : GEKUMOSARI_NO_ROOM;
    size_t written = answer ? strlen(answer) : 0;
    int good = gekumosari_session(session, length, out, room) == expected && memcmp(session, text, length) == 0;
    good = good && (!answer || memcmp(out, answer, written) == 0);
    for (size_t at = written; good && at < room; at++)
        good = out[at] == PAINT;
    free(session);
    free(out);
    return good;
}

static int says(const char *text, size_t room, const char *answer) {
    return answers((const uint8_t *)text, strlen(text), room, answer);
}

/* P with one step, which is padded by zeros in front of its time up to a length. */
static uint8_t *padded(size_t length) {
    static const char head[] = PLAN "ask=offer\nstart=";
    uint8_t *text = bytes(length);
    memset(text, '0', length);
    memcpy(text, head, sizeof head - 1);
    text[length - 2] = '3';
    text[length - 1] = '\n';
    return text;
}

int main(void) {
    const size_t whole = strlen(ANSWERS);
    setvbuf(stdout, NULL, _IOLBF, 0);

    check(says(PLAN STEPS, GEKUMOSARI_MOST_BYTES, ANSWERS), "P2 is answered whole, and the bytes past the answer are kept");
    check(says(PLAN STEPS, whole, ANSWERS), "P2 in a slice that just holds it");
    check(says(PLAN STEPS, whole + 1, ANSWERS), "P2 in a slice with one byte more, which is kept");
    check(says(PLAN STEPS, whole - 1, NULL), "P2 in a slice one byte short: -12, and all bytes are kept");
    check(says(PLAN STEPS, 0, NULL), "P2 in a slice of length 0: -12");
    check(says(PLAN, PAST, ""), "a plan without steps: length 0, and all bytes are kept");
    check(says(PLAN, 0, ""), "a plan without steps in a slice of length 0: length 0");
    check(says("", PAST, "refused=1,1\n"), "an empty text");
    check(says("", strlen("refused=1,1\n"), "refused=1,1\n"), "an empty text in a slice that just holds its line");
    check(says("", strlen("refused=1,1"), NULL), "an empty text in a slice one byte short: -12, and all bytes are kept");

    uint8_t out[PAST];
    memset(out, PAINT, sizeof out);
    check(gekumosari_session(NULL, 0, out, sizeof out) == 12 && memcmp(out, "refused=1,1\n", 12) == 0 && out[12] == PAINT, "a null pointer for an empty text");
    check(gekumosari_session((const uint8_t *)PLAN, strlen(PLAN), NULL, 0) == 0, "a null pointer for a slice of length 0 that suffices");
    check(gekumosari_session((const uint8_t *)PLAN STEPS, strlen(PLAN STEPS), NULL, 0) == GEKUMOSARI_NO_ROOM, "a null pointer for a slice of length 0 that does not: -12");
    check(gekumosari_session(NULL, 0, NULL, 0) == GEKUMOSARI_NO_ROOM, "null pointers for both: -12");

    uint8_t *longest = padded(GEKUMOSARI_LONGEST_TEXT);
    check(answers(longest, GEKUMOSARI_LONGEST_TEXT, GEKUMOSARI_MOST_BYTES, "offer=0,6\nrefused=1,13\n"), "a text of 65,536 bytes is read to its end");
    free(longest);
    longest = padded(GEKUMOSARI_LONGEST_TEXT + 1);
    check(answers(longest, GEKUMOSARI_LONGEST_TEXT + 1, GEKUMOSARI_MOST_BYTES, "refused=1,0\n"), "a text of 65,537 bytes is refused by 1,0");
    check(answers(longest, GEKUMOSARI_LONGEST_TEXT + 1, strlen("refused=1,0"), NULL), "a text of 65,537 bytes, its line one byte too long: -12");
    free(longest);

    /* A slice in the midst of others. */
    uint8_t *wide = bytes(whole + 2 * PAST);
    memset(wide, PAINT, whole + 2 * PAST);
    int good = gekumosari_session((const uint8_t *)PLAN STEPS, strlen(PLAN STEPS), wide + PAST, whole) == (int64_t)whole;
    good = good && memcmp(wide + PAST, ANSWERS, whole) == 0;
    for (size_t at = 0; at < PAST; at++)
        good = good && wide[at] == PAINT && wide[PAST + whole + at] == PAINT;
    free(wide);
    check(good, "a slice in the midst of a longer one: the bytes before and past it are kept");

    return failed;
}
