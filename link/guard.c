/* Every function that takes a pointer, called for link/check with memory that lies between two pages which cannot be touched: against the end of the first or
 * the start of the second, at every length from 0 and so at every alignment, at addresses up to the end, past it and up to the largest numbers; with NULL where
 * the length is 0; then the same by four threads at once. A read or write outside ends the program by a signal.
 *
 * link/check writes accesses.h: a line for each load and store of the header, LOAD(name, bytes) and its kin; of a load at an address also the load at a pointer,
 * whose value alone is asked with the offset 0.
 */
#define _GNU_SOURCE
#include <pthread.h>
#include <stdatomic.h>
#include <stdio.h>
#include <string.h>
#include <sys/mman.h>
#include "gatulefo.h"

enum { PAGE = 4096, PAGES = 8, LONGEST = 40, KEPT = 0xa5, THREADS = 4, ROUNDS = 5 };

/* What lies between the two pages. */
struct room {
    uint8_t *start, *end;
};

static atomic_size_t calls, wrong;

static void expect(bool right, const char *name) {
    calls++;
    if (!right && wrong++ < 10) fprintf(stderr, "guard: %s\n", name);
}

static struct room make_room(void) {
    uint8_t *pages = mmap(NULL, (PAGES + 2) * PAGE, PROT_NONE, MAP_PRIVATE | MAP_ANONYMOUS, -1, 0);
    mprotect(pages + PAGE, PAGES * PAGE, PROT_READ | PROT_WRITE);
    return (struct room){pages + PAGE, pages + (PAGES + 1) * PAGE};
}

static uint64_t mixed(uint64_t sum, const void *bytes, size_t length) {
    for (size_t i = 0; i < length; i++) sum = (sum ^ ((const uint8_t *)bytes)[i]) * 0x9e3779b97f4a7c15u + (sum >> 47);
    return sum;
}

static const uint64_t addresses[] = {0, 1, 2, 3, 7, 8, 15, 16, 17, 23, 24, 31, 32, 33, 40, 41, 1ull << 32, 1ull << 63, ~0ull - 15, ~0ull - 1, ~0ull};
static const uint64_t offsets[] = {0, 1, 9, 1ull << 63, ~0ull};

#define COUNT(a) (sizeof(a) / sizeof *(a))

/* Document 02, order 9: "the exact end of the access minus the length, or 2^64-1 where it is larger than that"; 0 where the access is allowed. */
static uint64_t shortfall(uint64_t address, uint64_t offset, size_t bytes, size_t length) {
    unsigned __int128 end = (unsigned __int128)address + offset + bytes;
    if (end <= length) return 0;
    return end - length > ~0ull ? ~0ull : (uint64_t)(end - length);
}

/* A memory of a length against one end of the room, filled, with what must not be written beside it. */
static uint8_t *laid(struct room room, size_t length, bool at_end) {
    uint8_t *memory = length || at_end ? (at_end ? room.end - length : room.start) : NULL;
    memset(room.start, KEPT, 2 * LONGEST);
    memset(room.end - 2 * LONGEST, KEPT, 2 * LONGEST);
    for (size_t i = 0; i < length; i++) memory[i] = (uint8_t)(37 * i + 1);
    return memory;
}

static bool is_kept(struct room room, size_t length, bool at_end) {
    const uint8_t *beside = at_end ? room.end - 2 * LONGEST : room.start + length;
    for (size_t i = 0; i < 2 * LONGEST - length; i++)
        if (beside[i] != KEPT) return false;
    return true;
}

static const gatulefo_v128 vector = {0x0123456789abcdefu, 0xfedcba9876543210u};

typedef gatulefo_loaded load(const uint8_t *, size_t, uint64_t, uint64_t, uint8_t);
typedef gatulefo_v128 value(const uint8_t *, size_t, uint64_t, uint64_t, uint8_t);
typedef gatulefo_stored store(uint8_t *, size_t, uint64_t, uint64_t, uint8_t);

/* Each load and store with the arguments of the longest. */
#define LOADS(name, arguments, alone, its) \
    static gatulefo_loaded load_##name(const uint8_t *m, size_t n, uint64_t a, uint64_t o, uint8_t l) { (void)o, (void)l; return gatulefo_##name arguments; } \
    static gatulefo_v128 value_##name(const uint8_t *m, size_t n, uint64_t a, uint64_t o, uint8_t l) { (void)o, (void)l; return gatulefo_value_##alone its; }
#define STORES(name, arguments) \
    static gatulefo_stored store_##name(uint8_t *m, size_t n, uint64_t a, uint64_t o, uint8_t l) { (void)o, (void)l; return gatulefo_##name arguments; }
#define LOAD(name, bytes) LOADS(name, (m, n, a, o), name, (m, n, a, o))
#define LOAD_AT(name, bytes, at_pointer) LOADS(name, (m, n, a), at_pointer, (m, n, a, 0))
#define LOAD_LANE(name, bytes) LOADS(name, (m, n, a, o, vector, l), name, (m, n, a, o, vector, l))
#define LOAD_LANE_AT(name, bytes, at_pointer) LOADS(name, (m, n, a, vector, l), at_pointer, (m, n, a, 0, vector, l))
#define STORE(name, bytes) STORES(name, (m, n, a, o, vector))
#define STORE_AT(name, bytes) STORES(name, (m, n, a, vector))
#define STORE_LANE(name, bytes) STORES(name, (m, n, a, o, vector, l))
#define STORE_LANE_AT(name, bytes) STORES(name, (m, n, a, vector, l))
#include "accesses.h"
#undef LOAD
#undef LOAD_AT
#undef LOAD_LANE
#undef LOAD_LANE_AT
#undef STORE
#undef STORE_AT
#undef STORE_LANE
#undef STORE_LANE_AT

/* Each with its bytes, whether it goes by an offset, and its lanes where it has a lane. */
static const struct access {
    const char *name;
    load *load;
    value *value;
    store *store;
    size_t bytes;
    bool at;
    uint8_t lanes;
} accesses[] = {
#define LOAD(name, bytes) {#name, load_##name, value_##name, NULL, bytes, false, 0},
#define LOAD_AT(name, bytes, at_pointer) {#name, load_##name, value_##name, NULL, bytes, true, 0},
#define LOAD_LANE(name, bytes) {#name, load_##name, value_##name, NULL, bytes, false, 16 / bytes},
#define LOAD_LANE_AT(name, bytes, at_pointer) {#name, load_##name, value_##name, NULL, bytes, true, 16 / bytes},
#define STORE(name, bytes) {#name, NULL, NULL, store_##name, bytes, false, 0},
#define STORE_AT(name, bytes) {#name, NULL, NULL, store_##name, bytes, true, 0},
#define STORE_LANE(name, bytes) {#name, NULL, NULL, store_##name, bytes, false, 16 / bytes},
#define STORE_LANE_AT(name, bytes) {#name, NULL, NULL, store_##name, bytes, true, 16 / bytes},
#include "accesses.h"
};

static uint64_t call_access(struct room room, const struct access *f, size_t length, bool at_end, uint64_t address, uint64_t offset) {
    uint8_t *memory = laid(room, length, at_end), lane = (uint8_t)((length + address) % (f->lanes + 1u));
    uint64_t short_by = shortfall(address, offset, f->bytes, length), sum = 0;
    uint8_t refused = f->lanes && lane == f->lanes ? 4 : short_by ? 7 : 0;
    if (refused == 4) short_by = 0;
    if (f->load) {
        gatulefo_loaded r = f->load(memory, length, address, offset, lane);
        gatulefo_v128 alone = f->value(memory, length, address, offset, lane);
        bool zero = !refused || !(r.vector.lo || r.vector.hi);
        expect(r.refused == refused && r.shortfall == short_by && zero && alone.lo == r.vector.lo && alone.hi == r.vector.hi, f->name);
        sum = mixed(sum, &r.vector, sizeof r.vector);
    } else {
        gatulefo_stored r = f->store(memory, length, address, offset, lane);
        expect(r.refused == refused && r.shortfall == short_by, f->name);
    }
    if (refused != 4) expect(gatulefo_shortfall(memory, length, address, offset, f->bytes) == short_by, "shortfall");
    expect(is_kept(room, length, at_end), f->name);
    return mixed(sum, memory, length);
}

static uint64_t call_accesses(struct room room) {
    uint64_t sum = 0;
    for (size_t f = 0; f < COUNT(accesses); f++)
        for (size_t length = 0; length <= LONGEST; length++)
            for (size_t a = 0; a < COUNT(addresses); a++)
                for (size_t o = 0; o < (accesses[f].at ? 1 : COUNT(offsets)); o++)
                    for (int at_end = 0; at_end < 2; at_end++) sum = sum * 31 + call_access(room, &accesses[f], length, at_end, addresses[a], offsets[o]);
    return sum;
}

/* Two rows of n elements of so many halves, the second against the end of the room and the first before it. */
static uint64_t call_rows(struct room room) {
    uint64_t sum = 0;
    for (size_t n = 0; n <= LONGEST; n++) {
        uint64_t *second = n ? (uint64_t *)room.end - 2 * n : NULL, *first = n ? second - 2 * n : NULL;
        gatulefo_v128 *vectors = (gatulefo_v128 *)first, *others = (gatulefo_v128 *)second;
        if (n) memset(first, 0x7f, 32 * n);
        expect(gatulefo_row_i8x16_add(first, 2 * n, second, 2 * n) == 0 && gatulefo_row_v128_xor(first, 2 * n, second, 2 * n) == 0, "row");
        expect(gatulefo_row_i8x16_popcnt(first, 2 * n) == 0 && (!n || gatulefo_row_i8x16_popcnt(first, 2 * n - 1) == 12), "row_i8x16_popcnt");
        expect(gatulefo_vector_row_i8x16_add(vectors, n, others, n) == 0 && gatulefo_vector_row_v128_xor(vectors, n, others, n) == 0, "vector_row");
        expect(!n || gatulefo_vector_row_v128_xor(vectors, n, others, n - 1) == 12, "vector_row_v128_xor");
        gatulefo_vector_row_i8x16_popcnt(vectors, n);
        sum = mixed(sum, first, 32 * n);
    }
    return sum;
}

static uint64_t call_lists(struct room room) {
    uint64_t *registers = (uint64_t *)room.start, sum = 0;
    uint16_t *writers = (uint16_t *)(room.start + 256);
    for (size_t n = 0; n <= 96; n++) {
        uint8_t *list = n ? room.end - n : NULL, *out = room.start + 512;
        memset(room.start, 1, 512);
        for (size_t i = 0; i < n; i++) list[i] = i % 32 ? 0 : 12;
        gatulefo_run_answer run = gatulefo_run(registers, writers, (gatulefo_kind_and_bits){0, 5}, list, n, 0, 256);
        expect(run.refused == (n % 32 ? 1 : 0) && run.done == (n % 32 ? 0 : n / 32), "run");
        gatulefo_step_answer step = gatulefo_step(registers, writers, run.scalar, 0, list, n);
        gatulefo_record_answer recorded = gatulefo_record(list, n, n ? out : NULL, n ? 512 : 0);
        expect(recorded.refused == (n % 32 ? 1 : 0) && recorded.empty == (n == 0), "record");
        expect(gatulefo_replay(out, recorded.bytes).refused == (recorded.bytes ? 0 : 13), "replay");
        sum = mixed(mixed(sum + step.refused + run.done, registers, 288), out, recorded.bytes);
    }
    return sum;
}

static uint64_t call_files(struct room room) {
    uint64_t sum = 0;
    for (size_t n = 0; n <= 1100; n++) {
        uint8_t *file = n ? room.end - n : NULL;
        if (n) memset(file, 0x1a, n);
        expect(gatulefo_replay(file, n).refused == (n && n % 512 == 0 ? 14 : 13), "replay");
        gatulefo_mend_answer mended = gatulefo_mend(file, n, n ? room.start : NULL, n);
        expect(mended.refused == (n && n % 512 == 0 ? 0 : 13), "mend");
        gatulefo_position_or_refusal found = gatulefo_find(file, n, 0x1a1a1a1a, 0, 64);
        expect(found.refused == (n < 12 ? 10 : 0) && found.position == 0, "find");
        sum = sum * 31 + mended.written + found.position;
    }
    return sum;
}

static uint64_t call_indices(struct room room) {
    uint64_t sum = 0;
    for (size_t n = 0; n <= 20; n++) {
        uint8_t *links = n ? room.end - 17 * n : NULL, *out = room.start;
        memset(out, KEPT, 16);
        if (n) memset(links, 3, 17 * n);
        expect(gatulefo_fold((const uint8_t (*)[17])links, n, out) == (n > 16 ? 18 : 0), "fold");
        sum = mixed(sum, out, 16);
    }
    for (unsigned above = 0; above < 2; above++) {
        uint8_t *indices = room.end - 16;
        for (int i = 0; i < 16; i++) indices[i] = (uint8_t)(i * 5 % 32 + 32 * above);
        gatulefo_vector_or_refusal r = gatulefo_i8x16_shuffle(vector, vector, indices);
        expect(r.refused == (above ? 5 : 0) && (r.vector.lo == 0) == (above == 1), "i8x16_shuffle");
        sum = mixed(sum, &r.vector, sizeof r.vector);
    }
    return sum;
}

/* A window of n bytes against one end of the room and a piece of zeros against the other. */
static uint64_t call_scans(struct room room) {
    uint64_t *table = (uint64_t *)(room.start + 2 * PAGE), sum = 0;
    gatulefo_scan_columns(table, 0, 0);
    for (size_t n = 0; n <= 200; n++)
        for (int at_end = 0; at_end < 2; at_end++) {
            size_t taken = n < 100 ? n : 100;
            uint8_t *window = n ? at_end ? room.end - n : room.start : NULL, *piece = at_end ? room.start : room.end - 100;
            memset(piece, 0, 100);
            gatulefo_fed_state fed = gatulefo_scan_feed(window, n, gatulefo_scan_start(), piece, 100);
            expect(fed.used == taken && fed.state.filled == taken, "scan_feed");
            gatulefo_meeting_or_none next = gatulefo_scan_next(window, n, fed.state, table, 0, 0, 64);
            expect(next.met == (taken >= 12) && next.position == 0, "scan_next");
            fed = gatulefo_scan_feed(window, n, next.state, NULL, 0);
            expect(fed.used == 0 && gatulefo_scan_end(fed.state, 0, 64, next.met) == (next.met ? 0 : 10), "scan_end");
            sum = sum * 31 + next.state.from;
        }
    return sum;
}

static uint64_t call_all(struct room room) {
    return call_accesses(room) + 3 * call_rows(room) + 5 * call_lists(room) + 7 * call_files(room) + 11 * call_indices(room) + 13 * call_scans(room);
}

static void *thread(void *sum) {
    struct room room = make_room();
    for (int i = 0; i < ROUNDS; i++) expect(call_all(room) == *(uint64_t *)sum, "a thread beside others");
    return NULL;
}

int main(void) {
    uint64_t sum = call_all(make_room());
    size_t once = calls;
    pthread_t threads[THREADS];
    for (int i = 0; i < THREADS; i++) pthread_create(&threads[i], NULL, thread, &sum);
    for (int i = 0; i < THREADS; i++) pthread_join(threads[i], NULL);
    printf("%zu tests at guard pages, and %d threads at once %d times over, %zu wrong\n", once, THREADS, ROUNDS, (size_t)wrong);
    return wrong != 0;
}
