/*
 * Reads and writes Advertisement messages by the library, for tools/protoc.py. A line of input is `read EPOCH HEX` (a message) or
 * `write EPOCH HEX` (an advertisement's record); a line of output is the library's answer and, where it refused nothing, a space and the
 * bytes that it gave in hexadecimal.
 */
#include <inttypes.h>
#include <stdio.h>
#include <string.h>

#include "unglassot.h"

#define BYTES_MAX 1024

static size_t from_hex(const char *text, uint8_t *bytes) {
    size_t count = 0;
    unsigned byte;
    while (count < BYTES_MAX && sscanf(text + 2 * count, "%2x", &byte) == 1) {
        bytes[count++] = (uint8_t)byte;
    }
    return count;
}

int main(void) {
    static char line[4 * BYTES_MAX], text[2 * BYTES_MAX + 1], word[8];
    uint8_t given[BYTES_MAX], out[UNGLASSOT_MESSAGE_MAX];
    uint64_t epoch;
    if (!unglassot_is_this_version()) {
        return 1;
    }
    while (fgets(line, sizeof line, stdin)) {
        text[0] = 0;
        if (sscanf(line, "%7s %" SCNu64 " %2048s", word, &epoch, text) < 2) {
            return 1;
        }
        size_t count = from_hex(text, given), length;
        int64_t answer;
        if (strcmp(word, "read") == 0) {
            answer = unglassot_read_message(given, count, epoch, out, UNGLASSOT_AD_LEN);
            length = answer < 0 ? 0 : UNGLASSOT_AD_LEN;
        } else {
            answer = unglassot_write_message(given, count, epoch, out, sizeof out);
            length = answer < 0 ? 0 : (size_t)answer;
        }
        printf("%" PRId64 "%s", answer, length == 0 ? "" : " ");
        for (size_t i = 0; i < length; i++) {
            printf("%02x", out[i]);
        }
        printf("\n");
        fflush(stdout);
    }
    return 0;
}
