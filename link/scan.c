/* scan MARKER TOLERANCE LENGTH PIECE < CAPTURE: what the program `scan` writes, by the library, in pieces of at most so many bytes. */
#include <inttypes.h>
#include <stdio.h>
#include <stdlib.h>
#include <gatulefo.h>

static uint8_t window[20000], piece[65536];
static uint64_t table[1280];

int main(int count, char **words) {
    if (count != 5) return 2;
    uint32_t marker = strtoul(words[1], NULL, 16), tolerance = strtoul(words[2], NULL, 10), length = strtoul(words[3], NULL, 10);
    size_t most = strtoul(words[4], NULL, 10), n;
    if (most > sizeof piece) return 2;
    bool met = false;
    gatulefo_scan_state state = gatulefo_scan_start();
    uint8_t refused = gatulefo_scan_end(state, tolerance, length, met);
    if (refused < 10) return printf("refused %d\n", refused) < 0;
    gatulefo_scan_columns(table, marker, tolerance);
    while ((n = fread(piece, 1, most, stdin)) > 0)
        for (size_t at = 0; at < n;) {
            gatulefo_fed_state fed = gatulefo_scan_feed(window, sizeof window, state, piece + at, n - at);
            if (fed.used == 0) return 3;
            at += fed.used;
            state = fed.state;
            for (;;) {
                gatulefo_meeting_or_none next = gatulefo_scan_next(window, sizeof window, state, table, marker, tolerance, length);
                state = next.state;
                if (!next.met) break;
                met = true;
                printf("position %" PRIu64 " distances %" PRIu32 " %" PRIu32 "\n", next.position, next.first, next.second);
            }
        }
    return printf("refused %d\n", gatulefo_scan_end(state, tolerance, length, met)) < 0;
}
