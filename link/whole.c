/* The functions that answer no request of the program `direct`, called from C, for link/check: what the programs `marker`, `lease`, `fold`, `record`, `replay` and `mend` do
 * with standard input, once more over the library, in their words. What `scan` does, link/scan.c does.
 *
 *   whole marker MARKER TOLERANCE LENGTH < CAPTURE
 *   whole lease PLACE LIMIT < LIST
 *   whole held PLACE LIMIT < LIST, as `lease`, from a state with nothing 0 in it
 *   whole steps < LIST, one step after the other, each by itself
 *   whole fold < CHAIN
 *   whole record ROOM < LIST, into a buffer of so many bytes
 *   whole replay < RECORDING
 *   whole mend ROOM < RECORDING, into a buffer of so many bytes
 *   whole row add|xor|popcnt FIRST SECOND < BYTES, a row of so many halves and another behind it
 *   whole vectors add|xor|popcnt FIRST SECOND < BYTES, the same of vectors
 *
 * Every field of an answer is read after every call: one that has to be 0 and is not gets written, and so does a buffer that has to stay as it was and does not.
 */
#include <inttypes.h>
#include <stdio.h>
#include <stdlib.h>
#include <string.h>
#include "gatulefo.h"

/* The longest recording, and what stands in a buffer before a call. */
enum { LONGEST = 18944, KEPT = 0xa5 };

static uint8_t input[65537], out[LONGEST + 1];
static size_t length;
static char **arguments;

struct machine {
    uint64_t registers[32];
    uint16_t writers[16];
    gatulefo_kind_and_bits scalar;
};

static size_t number(int i) {
    return strtoull(arguments[i], NULL, 10);
}

static bool is_kept(const uint8_t *bytes, size_t count) {
    for (size_t i = 0; i < count; i++)
        if (bytes[i] != KEPT) return false;
    return true;
}

/* Writes the first bytes of `out`; none where one behind them was written too. */
static void write_out(size_t bytes) {
    if (bytes <= sizeof out && is_kept(out + bytes, sizeof out - bytes)) fwrite(out, 1, bytes, stdout);
    else fprintf(stderr, "%zu bytes, and others are written\n", bytes);
}

static void marker(void) {
    gatulefo_position_or_refusal r = gatulefo_find(input, length, strtoul(arguments[0], NULL, 16), number(1), number(2));
    if (!r.refused || r.position || r.first || r.second) printf("position %zu\ndistances %" PRIu32 " %" PRIu32 "\n", r.position, r.first, r.second);
    printf("refused %u\n", r.refused);
}

static void list(size_t done, const struct machine *m, uint8_t refused) {
    static const char *const kinds[] = {"i32", "i64", "f32", "f64", "?"};
    uint8_t kind = m->scalar.kind < 4 ? m->scalar.kind : 4;
    printf("steps %zu\n", done);
    for (int i = 0; i < 16; i++) {
        if (!m->registers[2 * i] && !m->registers[2 * i + 1]) continue;
        printf("r%02d ", i);
        for (int k = 0; k < 16; k++) printf("%02x", (unsigned)(m->registers[2 * i + k / 8] >> 8 * (k % 8) & 255));
        printf(" %u\n", m->writers[i]);
    }
    printf("s %s %0*" PRIx64 "\nrefused %u\n", kinds[kind], kind % 2 ? 16 : 8, m->scalar.bits, refused);
}

/* Takes the list up at the place reported, until it ends or is refused. A lease that pauses with no step done had the limit 0, and a list has at most 256 steps. */
static void lease_from(struct machine m) {
    size_t done = 0;
    gatulefo_run_answer r = {.place = number(0)};
    do {
        r = gatulefo_run(m.registers, m.writers, m.scalar, input, length, r.place, number(1));
        m.scalar = r.scalar;
        done += r.done;
        printf("steps %zu", r.done);
        if (r.paused || r.place) printf(" paused %zu", r.place);
        if (r.refused) printf(" refused %u", r.refused);
        puts(r.paused || r.refused ? "" : " ended");
    } while (r.paused && r.done && done < 256);
    list(done, &m, r.refused);
}

static void lease(void) {
    lease_from((struct machine){0});
}

/* The bytes of the registers are 0 to 255, register i was written by step 256 - i, and the scalar is an f64. */
static void held(void) {
    struct machine m = {.scalar = {.kind = 3, .bits = 0xfff4000000000001}};
    for (int i = 0; i < 256; i++) m.registers[i / 8] |= (uint64_t)i << 8 * (i % 8);
    for (int i = 0; i < 16; i++) m.writers[i] = 256 - i;
    lease_from(m);
}

static void steps(void) {
    struct machine m = {0};
    size_t done = 0;
    uint8_t refused = 0;
    while (32 * done < length && !refused) {
        gatulefo_step_answer r = gatulefo_step(m.registers, m.writers, m.scalar, done, input + 32 * done, 32);
        m.scalar = r.scalar;
        refused = r.refused;
        done += !refused;
    }
    list(done, &m, refused);
}

static void fold(void) {
    uint8_t indices[16];
    memset(indices, KEPT, sizeof indices);
    uint8_t refused = gatulefo_fold((const uint8_t (*)[17])input, length / 17, indices);
    if (!refused || !is_kept(indices, sizeof indices)) {
        printf("indices ");
        for (int i = 0; i < 16; i++) printf("%02x", indices[i]);
        printf("\n");
    }
    printf("refused %u\n", refused);
}

static void record(void) {
    gatulefo_record_answer r = gatulefo_record(input, length, out, number(0));
    if (r.empty) fprintf(stderr, "the list is empty\n");
    if (r.overflow) fprintf(stderr, "record: no room\n");
    if (r.refused) fprintf(stderr, "refused %u\n", r.refused);
    write_out(r.bytes);
}

static void replay(void) {
    gatulefo_replay_answer r = gatulefo_replay(input, length);
    if (r.differs) printf("record %u\n", r.differs);
    if (r.refused) printf("refused %u\n", r.refused);
    if (!r.differs && !r.refused) printf("agrees\n");
}

static void mend(void) {
    gatulefo_mend_answer r = gatulefo_mend(input, length, out, number(0));
    if (r.refused) fprintf(stderr, "refused %u\n", r.refused);
    for (size_t i = 0; i < sizeof r.bits / sizeof *r.bits; i++)
        if (r.bits[i] != 4096) fprintf(stderr, "block %zu bit %u\n", i, r.bits[i]);
    if (r.stopped) fprintf(stderr, "block %zu not mended\n", r.written);
    write_out(512 * r.written);
}

/* Writes what was read, with the first row as the call leaves it. */
static void row(void) {
    static uint64_t first[sizeof input / 8 + 1], second[sizeof input / 8 + 1];
    size_t halves = number(1);
    uint8_t refused = 0;
    memcpy(first, input, length);
    memcpy(second, input + 8 * halves, 8 * number(2));
    if (!strcmp(arguments[0], "add")) refused = gatulefo_row_i8x16_add(first, halves, second, number(2));
    if (!strcmp(arguments[0], "xor")) refused = gatulefo_row_v128_xor(first, halves, second, number(2));
    if (!strcmp(arguments[0], "popcnt")) refused = gatulefo_row_i8x16_popcnt(first, halves);
    fwrite(first, 1, length, stdout);
    fprintf(stderr, "refused %u\n", refused);
}

static void vectors(void) {
    static gatulefo_v128 first[sizeof input / 16 + 1], second[sizeof input / 16 + 1];
    size_t count = number(1);
    uint8_t refused = 0;
    memcpy(first, input, length);
    memcpy(second, input + 16 * count, 16 * number(2));
    if (!strcmp(arguments[0], "add")) refused = gatulefo_vector_row_i8x16_add(first, count, second, number(2));
    if (!strcmp(arguments[0], "xor")) refused = gatulefo_vector_row_v128_xor(first, count, second, number(2));
    if (!strcmp(arguments[0], "popcnt")) gatulefo_vector_row_i8x16_popcnt(first, count);
    fwrite(first, 1, length, stdout);
    fprintf(stderr, "refused %u\n", refused);
}

static const struct {
    const char *name;
    int arguments;
    void (*answer)(void);
} modes[] = {
    {"marker", 3, marker}, {"lease", 2, lease},   {"held", 2, held}, {"steps", 0, steps}, {"fold", 0, fold},
    {"record", 1, record}, {"replay", 0, replay}, {"mend", 1, mend}, {"row", 3, row},
    {"vectors", 3, vectors},
};

int main(int count, char **words) {
    length = fread(input, 1, sizeof input, stdin);
    memset(out, KEPT, sizeof out);
    arguments = words + 2;
    for (size_t i = 0; i < sizeof modes / sizeof *modes; i++) {
        if (count != 2 + modes[i].arguments || strcmp(words[1], modes[i].name)) continue;
        modes[i].answer();
        return 0;
    }
    return 2;
}
