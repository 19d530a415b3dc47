/*
 * gekumosari.h - the one entry of the library, for the agent on the replica.
 *
 * SYNOPSIS
 *
 *     #include "gekumosari.h"
 *
 *     int64_t gekumosari_session(const uint8_t *text, size_t length,
 *                                uint8_t *out, size_t room);
 *
 *     cc agent.c $(pkg-config --cflags --libs gekumosari)       installed, with the shared library
 *     cc agent.c $(pkg-config --cflags gekumosari) $(pkg-config --variable=archive gekumosari)
 *                                                               installed, with the archive
 *     cc -Iinclude agent.c target/staticlib/libagent.a          in the source tree, after `make`
 *
 * The shared library is libgekumosari.so.0: the archive's code, linked once more. Of the C library they
 * need memcpy and memset alone. They are made for x86-64 Linux.
 *
 * WHAT GOES IN
 *
 *     text, length   A session: a plan, followed by steps, one line each. Any bytes are allowed, and
 *                    any length; a text that is not a session is answered by one line `refused=N,D`. The
 *                    bytes are read and never written.
 *     out, room      A slice that the caller lends for the answer. Its bytes are written, as
 *                    described below, and never read.
 *
 * Both slices stay the caller's and are not kept after the call. They must not overlap. A slice of
 * length 0 is allowed, and its pointer is not looked at: it may be a null pointer.
 *
 * WHAT COMES BACK
 *
 *     0 or more            The length of the answer. It stands in the first bytes of out; the bytes
 *                          past it keep their values. The answer is what `gekumosari dispatch`
 *                          prints for the same text: a line for each step, or the one line of a plan
 *                          that is refused. It is 0 for an accepted plan without steps. No byte 0
 *                          follows it.
 *     GEKUMOSARI_NO_ROOM   The answer is longer than room. All bytes of out keep their values.
 *
 * No other value comes back. A refusal of the plan or of a step is a line of the answer, and no
 * value of its own. The same text has the same answer each time: the entry keeps nothing from one
 * call to the next.
 *
 * HOW MUCH ROOM
 *
 * An answer has at most 7 bytes for each byte of the text, and 56 more. A text of more than 65,536
 * bytes is answered by `refused=1,0`, so GEKUMOSARI_MOST_BYTES are enough for every text. In a
 * shorter slice the answer is measured before it is written, and the steps take twice the time.
 *
 * THREADS
 *
 * The entry has no state, takes no lock, allocates nothing and reads no clock. Calls from several
 * threads at once are safe, as long as nothing else uses the slice out of one of them, or writes to
 * its text, during the call.
 */
#ifndef GEKUMOSARI_H
#define GEKUMOSARI_H

#include <stddef.h>
#include <stdint.h>

#ifdef __cplusplus
extern "C" {
#endif

/* The answer is longer than the lent slice: refusal 12, as a negative number. */
#define GEKUMOSARI_NO_ROOM (-12)

/* The longest text that is no fault in itself. */
#define GEKUMOSARI_LONGEST_TEXT 65536

/* No answer is longer: 7 bytes for each of the longest text's, and 56 more. */
#define GEKUMOSARI_MOST_BYTES 458808

/* The answer to a session. */
int64_t gekumosari_session(const uint8_t *text, size_t length, uint8_t *out, size_t room);

#ifdef __cplusplus
}
#endif

#endif
