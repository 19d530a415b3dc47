/* A session on standard input, its answer on standard output. The slice lent is as long as the first argument says. */
#include <gekumosari.h>
#include <stdio.h>
#include <stdlib.h>
#include <string.h>

enum { TEXT = GEKUMOSARI_LONGEST_TEXT + 1, ROOM = GEKUMOSARI_MOST_BYTES, PAINT = 0xA5 };

static uint8_t text[TEXT], out[ROOM];

int main(int argc, char **argv) {
    size_t room = argc > 1 ? strtoul(argv[1], NULL, 10) : ROOM;
    size_t len = fread(text, 1, TEXT, stdin);
    if (room > ROOM)
        return 2;
    memset(out, PAINT, ROOM);
    int64_t length = gekumosari_session(text, len, out, room);
    size_t written = length < 0 ? 0 : (size_t)length;
    for (size_t at = written; at < ROOM; at++)
        if (out[at] != PAINT) {
            fprintf(stderr, "byte %zu is changed\n", at);
            return 1;
        }
    if (length < 0)
        printf("%lld\n", (long long)length);
    return fwrite(out, 1, written, stdout) == written ? 0 : 1;
}
