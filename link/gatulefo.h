/* gatulefo.h: WebAssembly's 128-bit vector instructions, proved.
 *
 * SPDX-License-Identifier: Apache-2.0
 *
 * Made by link/header out of crates/gatulefo/src. `link/archive` makes the archive, target/staticlib/libgatulefo.a, for Linux on x86-64, and
 * link/install puts it with this header where a compiler looks; link/check calls every function here from C and compares what it answers.
 *
 * Values. A vector goes in and comes out by value. A scalar goes in and comes out as its bits: an i8 as a uint8_t, a float as the number of its pattern. No
 * number is wrong: any lane number, index, count, address or step list gets an answer.
 *
 * Refusals. Where a call may refuse, the number of the refusal comes back in the answer, 0 for none: 1 a list's length; 2 an operation without a step; 3 a
 * register above 15; 4 a lane not below the lane count; 5 a shuffle index above 31; 6 a scalar of the wrong kind; 7 an access past the end; 8 to 11 the
 * finder's and a scan's; 12 rows that differ in length or are odd; 13 to 15 a recording's length, checks and layout; 16 an output shorter than the input; 17
 * and 19 a run's limit and place; 18 more than 16 links. A refused call has written nothing, and the value in its answer is 0; of gatulefo_run the steps
 * before the refused one stay done. A load or a store that is refused with 7 says how far past the end it runs.
 *
 * Pointers. Each points to as many elements as the length beside it says, aligned as its type is; with the length 0 it may be NULL. An `out` is only written
 * and need not be set before. Two pointers of one call may overlap where both are const. Else they may not: the two rows of a gatulefo_row_ or
 * gatulefo_vector_row_ call, the registers, the numbers beside them and the list or step of gatulefo_run and gatulefo_step, the links and `out` of
 * gatulefo_fold, the list or file and `out` of gatulefo_record and gatulefo_mend, the window and the piece of gatulefo_scan_feed. While a call runs no other
 * thread writes what it reads, or reads or writes what it writes. The library keeps no state, so any number of threads may call it at once.
 *
 * Tail calls. A function that hands back a struct of more than 16 bytes writes it to a place on the caller's stack, and a handler that has such a place
 * cannot end in a jump to the next one. The functions behind gatulefo_value_ hand back the vector alone, in registers; so do all operations that cannot
 * refuse, and an extract and a store hand back their structs of 16 bytes in registers. Of the stack gatulefo_find takes 11 KiB and gatulefo_scan_columns 10
 * KiB, and no other function 2 KiB.
 *
 * Above a declaration stands what the function does, and then its promise. The promise's words stand in crates/standard/specs, and in the specs of the crates
 * that its source names. `number` is the number of a vector's 128 bits, and `result` is what comes back.
 */
#ifndef GATULEFO_H
#define GATULEFO_H

#include <stdbool.h>
#include <stddef.h>
#include <stdint.h>

#ifdef __cplusplus
extern "C" {
#endif

/* Major times 1,000,000, minor times 1,000, patch. gatulefo_version() is that of the library that is linked. */
#define GATULEFO_VERSION 3000
#define GATULEFO_VERSION_STRING "0.3.0"

/* The 128 bits of a vector, low half first: byte 0 is the low byte of `lo`. Its layout is C's, so that another language can hand one over. */
typedef struct {
    uint64_t lo;
    uint64_t hi;
} gatulefo_v128;

/* The bits of a lane; or the number of a refusal, 4, and the bits are 0. */
typedef struct {
    uint64_t bits;
    uint8_t refused;
} gatulefo_bits_or_refusal;

/* A vector; or the number of a refusal, 4 or 5, and the vector is 0. */
typedef struct {
    gatulefo_v128 vector;
    uint8_t refused;
} gatulefo_vector_or_refusal;

/* The vector of a load; or the number of a refusal, 4 or 7, and the vector is 0. With a 7 goes how far past the end the access runs, at most 2^64-1; else
 * that is 0. */
typedef struct {
    gatulefo_v128 vector;
    uint64_t shortfall;
    uint8_t refused;
} gatulefo_loaded;

/* The number of a store's refusal, 4 or 7, or 0; with a 7 how far past the end the access runs, at most 2^64-1. */
typedef struct {
    uint64_t shortfall;
    uint8_t refused;
} gatulefo_stored;

/* The calculator's scalar. Kind 0 is an i32, 1 an i64, 2 an f32, 3 an f64, as in a recording, and any other stands for 0; of a kind of 32 bits the low bits
 * count. */
typedef struct {
    uint8_t kind;
    uint64_t bits;
} gatulefo_kind_and_bits;

/* What a run leaves beside the registers: the scalar, the steps done, and how it stopped. Paused: the place to take up from. Refused: the number, 1 to 6, 17 or
 * 19; else 0. Neither: the list has ended. What says nothing is 0. */
typedef struct {
    gatulefo_kind_and_bits scalar;
    size_t done;
    size_t place;
    bool paused;
    uint8_t refused;
} gatulefo_run_answer;

/* What a step leaves beside the registers: the scalar, and the number of a refusal, 2 to 6; else 0. */
typedef struct {
    gatulefo_kind_and_bits scalar;
    uint8_t refused;
} gatulefo_step_answer;

/* How many blocks were written, whether the block after them could not be mended, and of each block written the bit that was put back, or 4096 for none. Or the
 * number of a refusal, 13 or 16, and nothing is written; else 0. */
typedef struct {
    uint8_t refused;
    size_t written;
    bool stopped;
    uint16_t bits[37];
} gatulefo_mend_answer;

/* A position with the distances of the windows there and a frame later; or the number of a refusal: 8 tolerance above 8, 9 length outside 64 to 65,536, 10
 * buffer above 65,536 bytes or too short, 11 no such position. The number is 0 where a position is given, and the others are 0 where it is refused. */
typedef struct {
    size_t position;
    uint32_t first;
    uint32_t second;
    uint8_t refused;
} gatulefo_position_or_refusal;

/* How many bytes were written. None where the list has no step, the recording would overflow the buffer, or the list is refused: the number, 1; else 0. */
typedef struct {
    size_t bytes;
    bool empty;
    bool overflow;
    uint8_t refused;
} gatulefo_record_answer;

/* The first record that is not what the definition gives, counted from 1; 0 where all are. Or the number of a refusal; else 0. */
typedef struct {
    uint16_t differs;
    uint8_t refused;
} gatulefo_replay_answer;

/* How far a capture has come: how many of its bytes lie before the window, how many are in it, and the bit of the window at which the search goes on. */
typedef struct {
    uint64_t before;
    size_t filled;
    size_t from;
} gatulefo_scan_state;

/* How many bytes of a piece were taken, and the state then. */
typedef struct {
    size_t used;
    gatulefo_scan_state state;
} gatulefo_fed_state;

/* The next meeting, with its position in the capture and both distances, where `met` is true; else these are 0, and nothing more is met in what has come. */
typedef struct {
    uint64_t position;
    uint32_t first;
    uint32_t second;
    bool met;
    gatulefo_scan_state state;
} gatulefo_meeting_or_none;

/* Lane by lane integer arithmetic. */

/* The sums of two 64-bit lanes, modulo 2^64.
 * number result ≡ binary 64 (iadd 64) (number lhs) (number rhs) */
gatulefo_v128 gatulefo_i64x2_add(gatulefo_v128 lhs, gatulefo_v128 rhs);

/* The sums of four 32-bit lanes, modulo 2^32.
 * number result ≡ binary 32 (iadd 32) (number lhs) (number rhs) */
gatulefo_v128 gatulefo_i32x4_add(gatulefo_v128 lhs, gatulefo_v128 rhs);

/* The sums of eight 16-bit lanes, modulo 2^16.
 * number result ≡ binary 16 (iadd 16) (number lhs) (number rhs) */
gatulefo_v128 gatulefo_i16x8_add(gatulefo_v128 lhs, gatulefo_v128 rhs);

/* The sums of sixteen 8-bit lanes, modulo 2^8.
 * number result ≡ binary 8 (iadd 8) (number lhs) (number rhs) */
gatulefo_v128 gatulefo_i8x16_add(gatulefo_v128 lhs, gatulefo_v128 rhs);

/* The differences, first minus second, of two 64-bit lanes, modulo 2^64.
 * number result ≡ binary 64 (isub 64) (number lhs) (number rhs) */
gatulefo_v128 gatulefo_i64x2_sub(gatulefo_v128 lhs, gatulefo_v128 rhs);

/* The differences, first minus second, of four 32-bit lanes, modulo 2^32.
 * number result ≡ binary 32 (isub 32) (number lhs) (number rhs) */
gatulefo_v128 gatulefo_i32x4_sub(gatulefo_v128 lhs, gatulefo_v128 rhs);

/* The differences, first minus second, of eight 16-bit lanes, modulo 2^16.
 * number result ≡ binary 16 (isub 16) (number lhs) (number rhs) */
gatulefo_v128 gatulefo_i16x8_sub(gatulefo_v128 lhs, gatulefo_v128 rhs);

/* The differences, first minus second, of sixteen 8-bit lanes, modulo 2^8.
 * number result ≡ binary 8 (isub 8) (number lhs) (number rhs) */
gatulefo_v128 gatulefo_i8x16_sub(gatulefo_v128 lhs, gatulefo_v128 rhs);

/* The products of two 64-bit lanes, modulo 2^64.
 * number result ≡ binary 64 (imul 64) (number lhs) (number rhs) */
gatulefo_v128 gatulefo_i64x2_mul(gatulefo_v128 lhs, gatulefo_v128 rhs);

/* The products of four 32-bit lanes, modulo 2^32.
 * number result ≡ binary 32 (imul 32) (number lhs) (number rhs) */
gatulefo_v128 gatulefo_i32x4_mul(gatulefo_v128 lhs, gatulefo_v128 rhs);

/* The products of eight 16-bit lanes, modulo 2^16.
 * number result ≡ binary 16 (imul 16) (number lhs) (number rhs) */
gatulefo_v128 gatulefo_i16x8_mul(gatulefo_v128 lhs, gatulefo_v128 rhs);

/* The products of sixteen 8-bit lanes, modulo 2^8.
 * number result ≡ binary 8 (imul 8) (number lhs) (number rhs) */
gatulefo_v128 gatulefo_i8x16_mul(gatulefo_v128 lhs, gatulefo_v128 rhs);

/* The sums of sixteen 8-bit lanes, signed, held to the range.
 * number result ≡ binary 8 (iadd_sat_s 8) (number lhs) (number rhs) */
gatulefo_v128 gatulefo_i8x16_add_sat_s(gatulefo_v128 lhs, gatulefo_v128 rhs);

/* The sums of sixteen 8-bit lanes, unsigned, held to the range.
 * number result ≡ binary 8 (iadd_sat_u 8) (number lhs) (number rhs) */
gatulefo_v128 gatulefo_i8x16_add_sat_u(gatulefo_v128 lhs, gatulefo_v128 rhs);

/* The sums of eight 16-bit lanes, signed, held to the range.
 * number result ≡ binary 16 (iadd_sat_s 16) (number lhs) (number rhs) */
gatulefo_v128 gatulefo_i16x8_add_sat_s(gatulefo_v128 lhs, gatulefo_v128 rhs);

/* The sums of eight 16-bit lanes, unsigned, held to the range.
 * number result ≡ binary 16 (iadd_sat_u 16) (number lhs) (number rhs) */
gatulefo_v128 gatulefo_i16x8_add_sat_u(gatulefo_v128 lhs, gatulefo_v128 rhs);

/* The differences of sixteen 8-bit lanes, signed, held to the range.
 * number result ≡ binary 8 (isub_sat_s 8) (number lhs) (number rhs) */
gatulefo_v128 gatulefo_i8x16_sub_sat_s(gatulefo_v128 lhs, gatulefo_v128 rhs);

/* The differences of sixteen 8-bit lanes, unsigned, held to the range.
 * number result ≡ binary 8 (isub_sat_u 8) (number lhs) (number rhs) */
gatulefo_v128 gatulefo_i8x16_sub_sat_u(gatulefo_v128 lhs, gatulefo_v128 rhs);

/* The differences of eight 16-bit lanes, signed, held to the range.
 * number result ≡ binary 16 (isub_sat_s 16) (number lhs) (number rhs) */
gatulefo_v128 gatulefo_i16x8_sub_sat_s(gatulefo_v128 lhs, gatulefo_v128 rhs);

/* The differences of eight 16-bit lanes, unsigned, held to the range.
 * number result ≡ binary 16 (isub_sat_u 16) (number lhs) (number rhs) */
gatulefo_v128 gatulefo_i16x8_sub_sat_u(gatulefo_v128 lhs, gatulefo_v128 rhs);

/* (a * b + 16384) / 32768, rounded down, of each two of eight 16-bit lanes, signed, held to -32768 to 32767.
 * number result ≡ binary 16 (iq15mulrsat_s 16) (number lhs) (number rhs) */
gatulefo_v128 gatulefo_i16x8_q15mulr_sat_s(gatulefo_v128 lhs, gatulefo_v128 rhs);

/* The smaller of each two of sixteen 8-bit lanes, signed.
 * number result ≡ binary 8 (imin_s 8) (number lhs) (number rhs) */
gatulefo_v128 gatulefo_i8x16_min_s(gatulefo_v128 lhs, gatulefo_v128 rhs);

/* The smaller of each two of sixteen 8-bit lanes, unsigned.
 * number result ≡ binary 8 (imin_u 8) (number lhs) (number rhs) */
gatulefo_v128 gatulefo_i8x16_min_u(gatulefo_v128 lhs, gatulefo_v128 rhs);

/* The smaller of each two of eight 16-bit lanes, signed.
 * number result ≡ binary 16 (imin_s 16) (number lhs) (number rhs) */
gatulefo_v128 gatulefo_i16x8_min_s(gatulefo_v128 lhs, gatulefo_v128 rhs);

/* The smaller of each two of eight 16-bit lanes, unsigned.
 * number result ≡ binary 16 (imin_u 16) (number lhs) (number rhs) */
gatulefo_v128 gatulefo_i16x8_min_u(gatulefo_v128 lhs, gatulefo_v128 rhs);

/* The smaller of each two of four 32-bit lanes, signed.
 * number result ≡ binary 32 (imin_s 32) (number lhs) (number rhs) */
gatulefo_v128 gatulefo_i32x4_min_s(gatulefo_v128 lhs, gatulefo_v128 rhs);

/* The smaller of each two of four 32-bit lanes, unsigned.
 * number result ≡ binary 32 (imin_u 32) (number lhs) (number rhs) */
gatulefo_v128 gatulefo_i32x4_min_u(gatulefo_v128 lhs, gatulefo_v128 rhs);

/* The larger of each two of sixteen 8-bit lanes, signed.
 * number result ≡ binary 8 (imax_s 8) (number lhs) (number rhs) */
gatulefo_v128 gatulefo_i8x16_max_s(gatulefo_v128 lhs, gatulefo_v128 rhs);

/* The larger of each two of sixteen 8-bit lanes, unsigned.
 * number result ≡ binary 8 (imax_u 8) (number lhs) (number rhs) */
gatulefo_v128 gatulefo_i8x16_max_u(gatulefo_v128 lhs, gatulefo_v128 rhs);

/* The larger of each two of eight 16-bit lanes, signed.
 * number result ≡ binary 16 (imax_s 16) (number lhs) (number rhs) */
gatulefo_v128 gatulefo_i16x8_max_s(gatulefo_v128 lhs, gatulefo_v128 rhs);

/* The larger of each two of eight 16-bit lanes, unsigned.
 * number result ≡ binary 16 (imax_u 16) (number lhs) (number rhs) */
gatulefo_v128 gatulefo_i16x8_max_u(gatulefo_v128 lhs, gatulefo_v128 rhs);

/* The larger of each two of four 32-bit lanes, signed.
 * number result ≡ binary 32 (imax_s 32) (number lhs) (number rhs) */
gatulefo_v128 gatulefo_i32x4_max_s(gatulefo_v128 lhs, gatulefo_v128 rhs);

/* The larger of each two of four 32-bit lanes, unsigned.
 * number result ≡ binary 32 (imax_u 32) (number lhs) (number rhs) */
gatulefo_v128 gatulefo_i32x4_max_u(gatulefo_v128 lhs, gatulefo_v128 rhs);

/* (a + b + 1) / 2 of each two of sixteen 8-bit lanes, unsigned, rounded down.
 * number result ≡ binary 8 (iavgr_u 8) (number lhs) (number rhs) */
gatulefo_v128 gatulefo_i8x16_avgr_u(gatulefo_v128 lhs, gatulefo_v128 rhs);

/* (a + b + 1) / 2 of each two of eight 16-bit lanes, unsigned, rounded down.
 * number result ≡ binary 16 (iavgr_u 16) (number lhs) (number rhs) */
gatulefo_v128 gatulefo_i16x8_avgr_u(gatulefo_v128 lhs, gatulefo_v128 rhs);

/* The negations of two 64-bit lanes, modulo 2^64.
 * number result ≡ unary 64 (ineg 64) (number v) */
gatulefo_v128 gatulefo_i64x2_neg(gatulefo_v128 v);

/* The negations of four 32-bit lanes, modulo 2^32.
 * number result ≡ unary 32 (ineg 32) (number v) */
gatulefo_v128 gatulefo_i32x4_neg(gatulefo_v128 v);

/* The negations of eight 16-bit lanes, modulo 2^16.
 * number result ≡ unary 16 (ineg 16) (number v) */
gatulefo_v128 gatulefo_i16x8_neg(gatulefo_v128 v);

/* The negations of sixteen 8-bit lanes, modulo 2^8.
 * number result ≡ unary 8 (ineg 8) (number v) */
gatulefo_v128 gatulefo_i8x16_neg(gatulefo_v128 v);

/* The absolute values of sixteen 8-bit lanes, modulo 2^8.
 * number result ≡ unary 8 (iabs 8) (number v) */
gatulefo_v128 gatulefo_i8x16_abs(gatulefo_v128 v);

/* The absolute values of eight 16-bit lanes, modulo 2^16.
 * number result ≡ unary 16 (iabs 16) (number v) */
gatulefo_v128 gatulefo_i16x8_abs(gatulefo_v128 v);

/* The absolute values of four 32-bit lanes, modulo 2^32.
 * number result ≡ unary 32 (iabs 32) (number v) */
gatulefo_v128 gatulefo_i32x4_abs(gatulefo_v128 v);

/* The absolute values of two 64-bit lanes, modulo 2^64.
 * number result ≡ unary 64 (iabs 64) (number v) */
gatulefo_v128 gatulefo_i64x2_abs(gatulefo_v128 v);

/* How many bits are one, in each of sixteen 8-bit lanes.
 * number result ≡ unary 8 (ipopcnt 8) (number v) */
gatulefo_v128 gatulefo_i8x16_popcnt(gatulefo_v128 v);

/* Bitwise operations, on whole halves. */

/* Bitwise and.
 * number result ≡ iand 128 (number lhs) (number rhs) */
gatulefo_v128 gatulefo_v128_and(gatulefo_v128 lhs, gatulefo_v128 rhs);

/* Bitwise or.
 * number result ≡ ior 128 (number lhs) (number rhs) */
gatulefo_v128 gatulefo_v128_or(gatulefo_v128 lhs, gatulefo_v128 rhs);

/* Bitwise exclusive or.
 * number result ≡ ixor 128 (number lhs) (number rhs) */
gatulefo_v128 gatulefo_v128_xor(gatulefo_v128 lhs, gatulefo_v128 rhs);

/* The bits of the first that the second has not.
 * number result ≡ iandnot 128 (number lhs) (number rhs) */
gatulefo_v128 gatulefo_v128_andnot(gatulefo_v128 lhs, gatulefo_v128 rhs);

/* Every bit flipped.
 * number result ≡ inot 128 (number v) */
gatulefo_v128 gatulefo_v128_not(gatulefo_v128 v);

/* A bit of the first where the third has a one there, else the second's.
 * number result ≡ ibitselect 128 (number v1) (number v2) (number c) */
gatulefo_v128 gatulefo_v128_bitselect(gatulefo_v128 v1, gatulefo_v128 v2, gatulefo_v128 c);

/* The calculator (document 01, "The calculator (added)"; document 02, orders 1, 2 and 12): a run of a list of steps from a place under a limit. The registers
 * are 32 words, two a register, low half first; beside each stands the number of the step that wrote it. */

/* Performs an operation by its number: the step of 32 bytes, as the one at a place of a list, counted from 0. A step that is refused changes nothing.
 * step_numbers (vectors registers.new) writers.new result ≡ left_by_step (machine_told registers.old writers.old scalar.kind scalar.bits) (Definition.step place (machine_told registers.old writers.old scalar.kind scalar.bits) step.now) */
gatulefo_step_answer gatulefo_step(uint64_t registers[32], uint16_t writers[16], gatulefo_kind_and_bits scalar, uint8_t place, const uint8_t *step, size_t step_length);

/* Runs the list from a place, at most `limit` steps of it. The registers and the numbers beside them are left as the run leaves them.
 * (vectors registers.new, writers.new, run_numbers result) ≡ left_by_run (Definition.run list.now place limit (machine_told registers.old writers.old scalar.kind scalar.bits)) */
gatulefo_run_answer gatulefo_run(uint64_t registers[32], uint16_t writers[16], gatulefo_kind_and_bits scalar, const uint8_t *list, size_t list_length, size_t place, size_t limit);

/* Lane by lane integer comparison: all ones or all zeros. */

/* All ones in each of sixteen 8-bit lanes where the first is equal to the second, else zeros.
 * number result ≡ binary 8 (ieq 8) (number lhs) (number rhs) */
gatulefo_v128 gatulefo_i8x16_eq(gatulefo_v128 lhs, gatulefo_v128 rhs);

/* All ones in each of eight 16-bit lanes where the first is equal to the second, else zeros.
 * number result ≡ binary 16 (ieq 16) (number lhs) (number rhs) */
gatulefo_v128 gatulefo_i16x8_eq(gatulefo_v128 lhs, gatulefo_v128 rhs);

/* All ones in each of four 32-bit lanes where the first is equal to the second, else zeros.
 * number result ≡ binary 32 (ieq 32) (number lhs) (number rhs) */
gatulefo_v128 gatulefo_i32x4_eq(gatulefo_v128 lhs, gatulefo_v128 rhs);

/* All ones in each of two 64-bit lanes where the first is equal to the second, else zeros.
 * number result ≡ binary 64 (ieq 64) (number lhs) (number rhs) */
gatulefo_v128 gatulefo_i64x2_eq(gatulefo_v128 lhs, gatulefo_v128 rhs);

/* All ones in each of sixteen 8-bit lanes where the first is not equal to the second, else zeros.
 * number result ≡ binary 8 (ine 8) (number lhs) (number rhs) */
gatulefo_v128 gatulefo_i8x16_ne(gatulefo_v128 lhs, gatulefo_v128 rhs);

/* All ones in each of eight 16-bit lanes where the first is not equal to the second, else zeros.
 * number result ≡ binary 16 (ine 16) (number lhs) (number rhs) */
gatulefo_v128 gatulefo_i16x8_ne(gatulefo_v128 lhs, gatulefo_v128 rhs);

/* All ones in each of four 32-bit lanes where the first is not equal to the second, else zeros.
 * number result ≡ binary 32 (ine 32) (number lhs) (number rhs) */
gatulefo_v128 gatulefo_i32x4_ne(gatulefo_v128 lhs, gatulefo_v128 rhs);

/* All ones in each of two 64-bit lanes where the first is not equal to the second, else zeros.
 * number result ≡ binary 64 (ine 64) (number lhs) (number rhs) */
gatulefo_v128 gatulefo_i64x2_ne(gatulefo_v128 lhs, gatulefo_v128 rhs);

/* All ones in each of sixteen 8-bit lanes where the first is less than the second, read as signed, else zeros.
 * number result ≡ binary 8 (ilt_s 8) (number lhs) (number rhs) */
gatulefo_v128 gatulefo_i8x16_lt_s(gatulefo_v128 lhs, gatulefo_v128 rhs);

/* All ones in each of sixteen 8-bit lanes where the first is less than the second, read as unsigned, else zeros.
 * number result ≡ binary 8 (ilt_u 8) (number lhs) (number rhs) */
gatulefo_v128 gatulefo_i8x16_lt_u(gatulefo_v128 lhs, gatulefo_v128 rhs);

/* All ones in each of eight 16-bit lanes where the first is less than the second, read as signed, else zeros.
 * number result ≡ binary 16 (ilt_s 16) (number lhs) (number rhs) */
gatulefo_v128 gatulefo_i16x8_lt_s(gatulefo_v128 lhs, gatulefo_v128 rhs);

/* All ones in each of eight 16-bit lanes where the first is less than the second, read as unsigned, else zeros.
 * number result ≡ binary 16 (ilt_u 16) (number lhs) (number rhs) */
gatulefo_v128 gatulefo_i16x8_lt_u(gatulefo_v128 lhs, gatulefo_v128 rhs);

/* All ones in each of four 32-bit lanes where the first is less than the second, read as signed, else zeros.
 * number result ≡ binary 32 (ilt_s 32) (number lhs) (number rhs) */
gatulefo_v128 gatulefo_i32x4_lt_s(gatulefo_v128 lhs, gatulefo_v128 rhs);

/* All ones in each of four 32-bit lanes where the first is less than the second, read as unsigned, else zeros.
 * number result ≡ binary 32 (ilt_u 32) (number lhs) (number rhs) */
gatulefo_v128 gatulefo_i32x4_lt_u(gatulefo_v128 lhs, gatulefo_v128 rhs);

/* All ones in each of two 64-bit lanes where the first is less than the second, read as signed, else zeros.
 * number result ≡ binary 64 (ilt_s 64) (number lhs) (number rhs) */
gatulefo_v128 gatulefo_i64x2_lt_s(gatulefo_v128 lhs, gatulefo_v128 rhs);

/* All ones in each of sixteen 8-bit lanes where the first is at most the second, read as signed, else zeros.
 * number result ≡ binary 8 (ile_s 8) (number lhs) (number rhs) */
gatulefo_v128 gatulefo_i8x16_le_s(gatulefo_v128 lhs, gatulefo_v128 rhs);

/* All ones in each of sixteen 8-bit lanes where the first is at most the second, read as unsigned, else zeros.
 * number result ≡ binary 8 (ile_u 8) (number lhs) (number rhs) */
gatulefo_v128 gatulefo_i8x16_le_u(gatulefo_v128 lhs, gatulefo_v128 rhs);

/* All ones in each of eight 16-bit lanes where the first is at most the second, read as signed, else zeros.
 * number result ≡ binary 16 (ile_s 16) (number lhs) (number rhs) */
gatulefo_v128 gatulefo_i16x8_le_s(gatulefo_v128 lhs, gatulefo_v128 rhs);

/* All ones in each of eight 16-bit lanes where the first is at most the second, read as unsigned, else zeros.
 * number result ≡ binary 16 (ile_u 16) (number lhs) (number rhs) */
gatulefo_v128 gatulefo_i16x8_le_u(gatulefo_v128 lhs, gatulefo_v128 rhs);

/* All ones in each of four 32-bit lanes where the first is at most the second, read as signed, else zeros.
 * number result ≡ binary 32 (ile_s 32) (number lhs) (number rhs) */
gatulefo_v128 gatulefo_i32x4_le_s(gatulefo_v128 lhs, gatulefo_v128 rhs);

/* All ones in each of four 32-bit lanes where the first is at most the second, read as unsigned, else zeros.
 * number result ≡ binary 32 (ile_u 32) (number lhs) (number rhs) */
gatulefo_v128 gatulefo_i32x4_le_u(gatulefo_v128 lhs, gatulefo_v128 rhs);

/* All ones in each of two 64-bit lanes where the first is at most the second, read as signed, else zeros.
 * number result ≡ binary 64 (ile_s 64) (number lhs) (number rhs) */
gatulefo_v128 gatulefo_i64x2_le_s(gatulefo_v128 lhs, gatulefo_v128 rhs);

/* All ones in each of sixteen 8-bit lanes where the first is greater than the second, read as signed, else zeros.
 * number result ≡ binary 8 (igt_s 8) (number lhs) (number rhs) */
gatulefo_v128 gatulefo_i8x16_gt_s(gatulefo_v128 lhs, gatulefo_v128 rhs);

/* All ones in each of sixteen 8-bit lanes where the first is greater than the second, read as unsigned, else zeros.
 * number result ≡ binary 8 (igt_u 8) (number lhs) (number rhs) */
gatulefo_v128 gatulefo_i8x16_gt_u(gatulefo_v128 lhs, gatulefo_v128 rhs);

/* All ones in each of eight 16-bit lanes where the first is greater than the second, read as signed, else zeros.
 * number result ≡ binary 16 (igt_s 16) (number lhs) (number rhs) */
gatulefo_v128 gatulefo_i16x8_gt_s(gatulefo_v128 lhs, gatulefo_v128 rhs);

/* All ones in each of eight 16-bit lanes where the first is greater than the second, read as unsigned, else zeros.
 * number result ≡ binary 16 (igt_u 16) (number lhs) (number rhs) */
gatulefo_v128 gatulefo_i16x8_gt_u(gatulefo_v128 lhs, gatulefo_v128 rhs);

/* All ones in each of four 32-bit lanes where the first is greater than the second, read as signed, else zeros.
 * number result ≡ binary 32 (igt_s 32) (number lhs) (number rhs) */
gatulefo_v128 gatulefo_i32x4_gt_s(gatulefo_v128 lhs, gatulefo_v128 rhs);

/* All ones in each of four 32-bit lanes where the first is greater than the second, read as unsigned, else zeros.
 * number result ≡ binary 32 (igt_u 32) (number lhs) (number rhs) */
gatulefo_v128 gatulefo_i32x4_gt_u(gatulefo_v128 lhs, gatulefo_v128 rhs);

/* All ones in each of two 64-bit lanes where the first is greater than the second, read as signed, else zeros.
 * number result ≡ binary 64 (igt_s 64) (number lhs) (number rhs) */
gatulefo_v128 gatulefo_i64x2_gt_s(gatulefo_v128 lhs, gatulefo_v128 rhs);

/* All ones in each of sixteen 8-bit lanes where the first is at least the second, read as signed, else zeros.
 * number result ≡ binary 8 (ige_s 8) (number lhs) (number rhs) */
gatulefo_v128 gatulefo_i8x16_ge_s(gatulefo_v128 lhs, gatulefo_v128 rhs);

/* All ones in each of sixteen 8-bit lanes where the first is at least the second, read as unsigned, else zeros.
 * number result ≡ binary 8 (ige_u 8) (number lhs) (number rhs) */
gatulefo_v128 gatulefo_i8x16_ge_u(gatulefo_v128 lhs, gatulefo_v128 rhs);

/* All ones in each of eight 16-bit lanes where the first is at least the second, read as signed, else zeros.
 * number result ≡ binary 16 (ige_s 16) (number lhs) (number rhs) */
gatulefo_v128 gatulefo_i16x8_ge_s(gatulefo_v128 lhs, gatulefo_v128 rhs);

/* All ones in each of eight 16-bit lanes where the first is at least the second, read as unsigned, else zeros.
 * number result ≡ binary 16 (ige_u 16) (number lhs) (number rhs) */
gatulefo_v128 gatulefo_i16x8_ge_u(gatulefo_v128 lhs, gatulefo_v128 rhs);

/* All ones in each of four 32-bit lanes where the first is at least the second, read as signed, else zeros.
 * number result ≡ binary 32 (ige_s 32) (number lhs) (number rhs) */
gatulefo_v128 gatulefo_i32x4_ge_s(gatulefo_v128 lhs, gatulefo_v128 rhs);

/* All ones in each of four 32-bit lanes where the first is at least the second, read as unsigned, else zeros.
 * number result ≡ binary 32 (ige_u 32) (number lhs) (number rhs) */
gatulefo_v128 gatulefo_i32x4_ge_u(gatulefo_v128 lhs, gatulefo_v128 rhs);

/* All ones in each of two 64-bit lanes where the first is at least the second, read as signed, else zeros.
 * number result ≡ binary 64 (ige_s 64) (number lhs) (number rhs) */
gatulefo_v128 gatulefo_i64x2_ge_s(gatulefo_v128 lhs, gatulefo_v128 rhs);

/* Lanes in another format: floats rounded to whole numbers, lanes converted between whole numbers and floats and between the float formats. The conversions
 * between 32 and 64 bits take the low lanes, or leave zeros above. */

/* Four float lanes rounded to whole numbers: up.
 * number result ≡ unary 32 (fceil binary32) (number v) */
gatulefo_v128 gatulefo_f32x4_ceil(gatulefo_v128 v);

/* Two double lanes rounded to whole numbers: up.
 * number result ≡ unary 64 (fceil binary64) (number v) */
gatulefo_v128 gatulefo_f64x2_ceil(gatulefo_v128 v);

/* Four float lanes rounded to whole numbers: down.
 * number result ≡ unary 32 (ffloor binary32) (number v) */
gatulefo_v128 gatulefo_f32x4_floor(gatulefo_v128 v);

/* Two double lanes rounded to whole numbers: down.
 * number result ≡ unary 64 (ffloor binary64) (number v) */
gatulefo_v128 gatulefo_f64x2_floor(gatulefo_v128 v);

/* Four float lanes rounded to whole numbers: toward zero.
 * number result ≡ unary 32 (ftrunc binary32) (number v) */
gatulefo_v128 gatulefo_f32x4_trunc(gatulefo_v128 v);

/* Two double lanes rounded to whole numbers: toward zero.
 * number result ≡ unary 64 (ftrunc binary64) (number v) */
gatulefo_v128 gatulefo_f64x2_trunc(gatulefo_v128 v);

/* Four float lanes rounded to whole numbers: to the nearest, ties to even.
 * number result ≡ unary 32 (fnearest binary32) (number v) */
gatulefo_v128 gatulefo_f32x4_nearest(gatulefo_v128 v);

/* Two double lanes rounded to whole numbers: to the nearest, ties to even.
 * number result ≡ unary 64 (fnearest binary64) (number v) */
gatulefo_v128 gatulefo_f64x2_nearest(gatulefo_v128 v);

/* The four 32-bit lanes, signed, as floats, the nearest, ties to even.
 * number result ≡ unary 32 (convert_s binary32) (number v) */
gatulefo_v128 gatulefo_f32x4_convert_i32x4_s(gatulefo_v128 v);

/* The four 32-bit lanes, unsigned, as floats, the nearest, ties to even.
 * number result ≡ unary 32 (convert_u binary32) (number v) */
gatulefo_v128 gatulefo_f32x4_convert_i32x4_u(gatulefo_v128 v);

/* The four float lanes without their fractions as signed integers, held to the range; a NaN gives 0.
 * number result ≡ unary 32 (trunc_sat_s binary32) (number v) */
gatulefo_v128 gatulefo_i32x4_trunc_sat_f32x4_s(gatulefo_v128 v);

/* The four float lanes without their fractions as unsigned integers, held to the range; a NaN gives 0.
 * number result ≡ unary 32 (trunc_sat_u binary32) (number v) */
gatulefo_v128 gatulefo_i32x4_trunc_sat_f32x4_u(gatulefo_v128 v);

/* The low two of four 32-bit lanes, signed, as doubles.
 * number result ≡ convert_low (convert_s binary64) (number v) */
gatulefo_v128 gatulefo_f64x2_convert_low_i32x4_s(gatulefo_v128 v);

/* The low two of four 32-bit lanes, unsigned, as doubles.
 * number result ≡ convert_low (convert_u binary64) (number v) */
gatulefo_v128 gatulefo_f64x2_convert_low_i32x4_u(gatulefo_v128 v);

/* The low two of four float lanes as doubles.
 * number result ≡ convert_low promote (number v) */
gatulefo_v128 gatulefo_f64x2_promote_low_f32x4(gatulefo_v128 v);

/* The two double lanes without their fractions as signed integers, held to the range, and two zeros above; a NaN gives 0.
 * number result ≡ convert_zero (trunc_sat_s binary64) (number v) */
gatulefo_v128 gatulefo_i32x4_trunc_sat_f64x2_s_zero(gatulefo_v128 v);

/* The two double lanes without their fractions as unsigned integers, held to the range, and two zeros above; a NaN gives 0.
 * number result ≡ convert_zero (trunc_sat_u binary64) (number v) */
gatulefo_v128 gatulefo_i32x4_trunc_sat_f64x2_u_zero(gatulefo_v128 v);

/* The two double lanes as floats, the nearest, ties to even, and two zeros above.
 * number result ≡ convert_zero demote (number v) */
gatulefo_v128 gatulefo_f32x4_demote_f64x2_zero(gatulefo_v128 v);

/* Extract: the lane at a number below the lane count; any other number is refused with 4. */

/* The lane at a number of two 64-bit lanes, as its bits.
 * (result.bits, result.refused) ≡ pair (at_lane 64 lane (extract 64 (number v) lane)) */
gatulefo_bits_or_refusal gatulefo_i64x2_extract_lane(gatulefo_v128 v, uint8_t lane);

/* The lane at a number of four 32-bit lanes, as its bits.
 * (result.bits, result.refused) ≡ pair (at_lane 32 lane (extract 32 (number v) lane)) */
gatulefo_bits_or_refusal gatulefo_i32x4_extract_lane(gatulefo_v128 v, uint8_t lane);

/* The lane at a number of two double lanes, as its bits.
 * (result.bits, result.refused) ≡ pair (at_lane 64 lane (extract 64 (number v) lane)) */
gatulefo_bits_or_refusal gatulefo_f64x2_extract_lane(gatulefo_v128 v, uint8_t lane);

/* The lane at a number of four float lanes, as its bits.
 * (result.bits, result.refused) ≡ pair (at_lane 32 lane (extract 32 (number v) lane)) */
gatulefo_bits_or_refusal gatulefo_f32x4_extract_lane(gatulefo_v128 v, uint8_t lane);

/* The lane at a number of sixteen 8-bit lanes, signed, as its bits.
 * (result.bits, result.refused) ≡ pair (at_lane 8 lane (extend_s 8 32 (extract 8 (number v) lane))) */
gatulefo_bits_or_refusal gatulefo_i8x16_extract_lane_s(gatulefo_v128 v, uint8_t lane);

/* The lane at a number of sixteen 8-bit lanes, unsigned, as its bits.
 * (result.bits, result.refused) ≡ pair (at_lane 8 lane (extract 8 (number v) lane)) */
gatulefo_bits_or_refusal gatulefo_i8x16_extract_lane_u(gatulefo_v128 v, uint8_t lane);

/* The lane at a number of eight 16-bit lanes, signed, as its bits.
 * (result.bits, result.refused) ≡ pair (at_lane 16 lane (extend_s 16 32 (extract 16 (number v) lane))) */
gatulefo_bits_or_refusal gatulefo_i16x8_extract_lane_s(gatulefo_v128 v, uint8_t lane);

/* The lane at a number of eight 16-bit lanes, unsigned, as its bits.
 * (result.bits, result.refused) ≡ pair (at_lane 16 lane (extract 16 (number v) lane)) */
gatulefo_bits_or_refusal gatulefo_i16x8_extract_lane_u(gatulefo_v128 v, uint8_t lane);

/* The marker finder (document 02, order 5): the smallest bit position at which a marker stands and stands again one frame later. */

/* Where the marker stands in the buffer, each of its two windows off by at most `tolerance` bits, in frames of `length` bits.
 * position_numbers result ≡ finding (find buffer.now marker tolerance length) */
gatulefo_position_or_refusal gatulefo_find(const uint8_t *buffer, size_t buffer_length, uint32_t marker, uint32_t tolerance, uint32_t length);

/* Float lanes: the six comparisons, negation and absolute value on bits, pmin and pmax, arithmetic. Comparison is all ones or all zeros. */

/* The smaller of each two of four float lanes; -0 is below +0, and a NaN on either side gives the positive quiet NaN.
 * number result ≡ binary 32 (fmin binary32) (number lhs) (number rhs) */
gatulefo_v128 gatulefo_f32x4_min(gatulefo_v128 lhs, gatulefo_v128 rhs);

/* The smaller of each two of two double lanes; -0 is below +0, and a NaN on either side gives the positive quiet NaN.
 * number result ≡ binary 64 (fmin binary64) (number lhs) (number rhs) */
gatulefo_v128 gatulefo_f64x2_min(gatulefo_v128 lhs, gatulefo_v128 rhs);

/* The larger of each two of four float lanes; -0 is below +0, and a NaN on either side gives the positive quiet NaN.
 * number result ≡ binary 32 (fmax binary32) (number lhs) (number rhs) */
gatulefo_v128 gatulefo_f32x4_max(gatulefo_v128 lhs, gatulefo_v128 rhs);

/* The larger of each two of two double lanes; -0 is below +0, and a NaN on either side gives the positive quiet NaN.
 * number result ≡ binary 64 (fmax binary64) (number lhs) (number rhs) */
gatulefo_v128 gatulefo_f64x2_max(gatulefo_v128 lhs, gatulefo_v128 rhs);

/* Of each two of four float lanes the second where it is smaller than the first, else the first, bit for bit.
 * number result ≡ binary 32 (fpmin binary32) (number lhs) (number rhs) */
gatulefo_v128 gatulefo_f32x4_pmin(gatulefo_v128 lhs, gatulefo_v128 rhs);

/* Of each two of two double lanes the second where it is smaller than the first, else the first, bit for bit.
 * number result ≡ binary 64 (fpmin binary64) (number lhs) (number rhs) */
gatulefo_v128 gatulefo_f64x2_pmin(gatulefo_v128 lhs, gatulefo_v128 rhs);

/* Of each two of four float lanes the second where it is larger than the first, else the first, bit for bit.
 * number result ≡ binary 32 (fpmax binary32) (number lhs) (number rhs) */
gatulefo_v128 gatulefo_f32x4_pmax(gatulefo_v128 lhs, gatulefo_v128 rhs);

/* Of each two of two double lanes the second where it is larger than the first, else the first, bit for bit.
 * number result ≡ binary 64 (fpmax binary64) (number lhs) (number rhs) */
gatulefo_v128 gatulefo_f64x2_pmax(gatulefo_v128 lhs, gatulefo_v128 rhs);

/* The sums of four float lanes, each rounded once; a NaN is the positive quiet one.
 * number result ≡ binary 32 (fadd binary32) (number lhs) (number rhs) */
gatulefo_v128 gatulefo_f32x4_add(gatulefo_v128 lhs, gatulefo_v128 rhs);

/* The sums of two double lanes, each rounded once; a NaN is the positive quiet one.
 * number result ≡ binary 64 (fadd binary64) (number lhs) (number rhs) */
gatulefo_v128 gatulefo_f64x2_add(gatulefo_v128 lhs, gatulefo_v128 rhs);

/* The differences, first minus second, of four float lanes, each rounded once; a NaN is the positive quiet one.
 * number result ≡ binary 32 (fsub binary32) (number lhs) (number rhs) */
gatulefo_v128 gatulefo_f32x4_sub(gatulefo_v128 lhs, gatulefo_v128 rhs);

/* The differences, first minus second, of two double lanes, each rounded once; a NaN is the positive quiet one.
 * number result ≡ binary 64 (fsub binary64) (number lhs) (number rhs) */
gatulefo_v128 gatulefo_f64x2_sub(gatulefo_v128 lhs, gatulefo_v128 rhs);

/* The quotients, first by second, of four float lanes, each rounded once; a NaN is the positive quiet one.
 * number result ≡ binary 32 (fdiv binary32) (number lhs) (number rhs) */
gatulefo_v128 gatulefo_f32x4_div(gatulefo_v128 lhs, gatulefo_v128 rhs);

/* The quotients, first by second, of two double lanes, each rounded once; a NaN is the positive quiet one.
 * number result ≡ binary 64 (fdiv binary64) (number lhs) (number rhs) */
gatulefo_v128 gatulefo_f64x2_div(gatulefo_v128 lhs, gatulefo_v128 rhs);

/* The products of four float lanes, each rounded once; a NaN is the positive quiet one.
 * number result ≡ binary 32 (fmul binary32) (number lhs) (number rhs) */
gatulefo_v128 gatulefo_f32x4_mul(gatulefo_v128 lhs, gatulefo_v128 rhs);

/* The products of two double lanes, each rounded once; a NaN is the positive quiet one.
 * number result ≡ binary 64 (fmul binary64) (number lhs) (number rhs) */
gatulefo_v128 gatulefo_f64x2_mul(gatulefo_v128 lhs, gatulefo_v128 rhs);

/* The negations of four float lanes, which flips the sign bit alone.
 * number result ≡ unary 32 (fneg binary32) (number v) */
gatulefo_v128 gatulefo_f32x4_neg(gatulefo_v128 v);

/* The negations of two double lanes, which flips the sign bit alone.
 * number result ≡ unary 64 (fneg binary64) (number v) */
gatulefo_v128 gatulefo_f64x2_neg(gatulefo_v128 v);

/* The absolute values of four float lanes, which clears the sign bit alone.
 * number result ≡ unary 32 (fabs binary32) (number v) */
gatulefo_v128 gatulefo_f32x4_abs(gatulefo_v128 v);

/* The absolute values of two double lanes, which clears the sign bit alone.
 * number result ≡ unary 64 (fabs binary64) (number v) */
gatulefo_v128 gatulefo_f64x2_abs(gatulefo_v128 v);

/* All ones in each of four float lanes where the first is equal to the second, else zeros.
 * number result ≡ binary 32 (feq binary32) (number lhs) (number rhs) */
gatulefo_v128 gatulefo_f32x4_eq(gatulefo_v128 lhs, gatulefo_v128 rhs);

/* All ones in each of two double lanes where the first is equal to the second, else zeros.
 * number result ≡ binary 64 (feq binary64) (number lhs) (number rhs) */
gatulefo_v128 gatulefo_f64x2_eq(gatulefo_v128 lhs, gatulefo_v128 rhs);

/* All ones in each of four float lanes where the first is not equal to the second, else zeros.
 * number result ≡ binary 32 (fne binary32) (number lhs) (number rhs) */
gatulefo_v128 gatulefo_f32x4_ne(gatulefo_v128 lhs, gatulefo_v128 rhs);

/* All ones in each of two double lanes where the first is not equal to the second, else zeros.
 * number result ≡ binary 64 (fne binary64) (number lhs) (number rhs) */
gatulefo_v128 gatulefo_f64x2_ne(gatulefo_v128 lhs, gatulefo_v128 rhs);

/* All ones in each of four float lanes where the first is less than the second, else zeros.
 * number result ≡ binary 32 (flt binary32) (number lhs) (number rhs) */
gatulefo_v128 gatulefo_f32x4_lt(gatulefo_v128 lhs, gatulefo_v128 rhs);

/* All ones in each of two double lanes where the first is less than the second, else zeros.
 * number result ≡ binary 64 (flt binary64) (number lhs) (number rhs) */
gatulefo_v128 gatulefo_f64x2_lt(gatulefo_v128 lhs, gatulefo_v128 rhs);

/* All ones in each of four float lanes where the first is at most the second, else zeros.
 * number result ≡ binary 32 (fle binary32) (number lhs) (number rhs) */
gatulefo_v128 gatulefo_f32x4_le(gatulefo_v128 lhs, gatulefo_v128 rhs);

/* All ones in each of two double lanes where the first is at most the second, else zeros.
 * number result ≡ binary 64 (fle binary64) (number lhs) (number rhs) */
gatulefo_v128 gatulefo_f64x2_le(gatulefo_v128 lhs, gatulefo_v128 rhs);

/* All ones in each of four float lanes where the first is greater than the second, else zeros.
 * number result ≡ binary 32 (fgt binary32) (number lhs) (number rhs) */
gatulefo_v128 gatulefo_f32x4_gt(gatulefo_v128 lhs, gatulefo_v128 rhs);

/* All ones in each of two double lanes where the first is greater than the second, else zeros.
 * number result ≡ binary 64 (fgt binary64) (number lhs) (number rhs) */
gatulefo_v128 gatulefo_f64x2_gt(gatulefo_v128 lhs, gatulefo_v128 rhs);

/* All ones in each of four float lanes where the first is at least the second, else zeros.
 * number result ≡ binary 32 (fge binary32) (number lhs) (number rhs) */
gatulefo_v128 gatulefo_f32x4_ge(gatulefo_v128 lhs, gatulefo_v128 rhs);

/* All ones in each of two double lanes where the first is at least the second, else zeros.
 * number result ≡ binary 64 (fge binary64) (number lhs) (number rhs) */
gatulefo_v128 gatulefo_f64x2_ge(gatulefo_v128 lhs, gatulefo_v128 rhs);

/* A chain of shuffles folded into one (document 02, order 13). A link is 17 bytes: its partner, 0 for a, 1 for b, any other number for the current vector, and
 * its sixteen indices. */

/* 0, and the sixteen indices of the one shuffle of a and b are written to `out`; or the number of the refusal, 18 more than 16 links, 5 an index above 31, and
 * nothing is written.
 * result ≡ refusal links.now
 * out.new ≡ left result (folded links.now) out.old */
uint8_t gatulefo_fold(const uint8_t (*links)[17], size_t links_length, uint8_t out[16]);

/* Loads. A lane load tests the lane, 4, before the bounds, 7, and with a 7 comes back how far past the end the access runs. */

/* Sixteen bytes, low byte first.
 * (number result.vector, result.shortfall, result.refused) ≡ access_numbers (load 16 memory.now (ptr + offset)) */
gatulefo_loaded gatulefo_v128_load(const uint8_t *memory, size_t memory_length, uint64_t ptr, uint64_t offset);

/* Sixteen bytes, low byte first.
 * (number result.vector, result.shortfall, result.refused) ≡ access_numbers (load 16 memory.now address) */
gatulefo_loaded gatulefo_v128_load_at(const uint8_t *memory, size_t memory_length, size_t address);

/* 32 bits, low byte first, and zeros above.
 * (number result.vector, result.shortfall, result.refused) ≡ access_numbers (load 4 memory.now (ptr + offset)) */
gatulefo_loaded gatulefo_v128_load32_zero(const uint8_t *memory, size_t memory_length, uint64_t ptr, uint64_t offset);

/* 32 bits, low byte first, and zeros above.
 * (number result.vector, result.shortfall, result.refused) ≡ access_numbers (load 4 memory.now address) */
gatulefo_loaded gatulefo_v128_load32_zero_at(const uint8_t *memory, size_t memory_length, size_t address);

/* 64 bits, low byte first, and zeros above.
 * (number result.vector, result.shortfall, result.refused) ≡ access_numbers (load 8 memory.now (ptr + offset)) */
gatulefo_loaded gatulefo_v128_load64_zero(const uint8_t *memory, size_t memory_length, uint64_t ptr, uint64_t offset);

/* 64 bits, low byte first, and zeros above.
 * (number result.vector, result.shortfall, result.refused) ≡ access_numbers (load 8 memory.now address) */
gatulefo_loaded gatulefo_v128_load64_zero_at(const uint8_t *memory, size_t memory_length, size_t address);

/* 8 bits, low byte first, in every lane.
 * (number result.vector, result.shortfall, result.refused) ≡ access_numbers (load_splat 8 memory.now (ptr + offset)) */
gatulefo_loaded gatulefo_v128_load8_splat(const uint8_t *memory, size_t memory_length, uint64_t ptr, uint64_t offset);

/* 8 bits, low byte first, in every lane.
 * (number result.vector, result.shortfall, result.refused) ≡ access_numbers (load_splat 8 memory.now address) */
gatulefo_loaded gatulefo_v128_load8_splat_at(const uint8_t *memory, size_t memory_length, size_t address);

/* 16 bits, low byte first, in every lane.
 * (number result.vector, result.shortfall, result.refused) ≡ access_numbers (load_splat 16 memory.now (ptr + offset)) */
gatulefo_loaded gatulefo_v128_load16_splat(const uint8_t *memory, size_t memory_length, uint64_t ptr, uint64_t offset);

/* 16 bits, low byte first, in every lane.
 * (number result.vector, result.shortfall, result.refused) ≡ access_numbers (load_splat 16 memory.now address) */
gatulefo_loaded gatulefo_v128_load16_splat_at(const uint8_t *memory, size_t memory_length, size_t address);

/* 32 bits, low byte first, in every lane.
 * (number result.vector, result.shortfall, result.refused) ≡ access_numbers (load_splat 32 memory.now (ptr + offset)) */
gatulefo_loaded gatulefo_v128_load32_splat(const uint8_t *memory, size_t memory_length, uint64_t ptr, uint64_t offset);

/* 32 bits, low byte first, in every lane.
 * (number result.vector, result.shortfall, result.refused) ≡ access_numbers (load_splat 32 memory.now address) */
gatulefo_loaded gatulefo_v128_load32_splat_at(const uint8_t *memory, size_t memory_length, size_t address);

/* 64 bits, low byte first, in every lane.
 * (number result.vector, result.shortfall, result.refused) ≡ access_numbers (load_splat 64 memory.now (ptr + offset)) */
gatulefo_loaded gatulefo_v128_load64_splat(const uint8_t *memory, size_t memory_length, uint64_t ptr, uint64_t offset);

/* 64 bits, low byte first, in every lane.
 * (number result.vector, result.shortfall, result.refused) ≡ access_numbers (load_splat 64 memory.now address) */
gatulefo_loaded gatulefo_v128_load64_splat_at(const uint8_t *memory, size_t memory_length, size_t address);

/* Eight bytes as 8 lanes of 8 bits, signed, each widened to twice its bits.
 * (number result.vector, result.shortfall, result.refused) ≡ access_numbers (load_widen extend_s 8 memory.now (ptr + offset)) */
gatulefo_loaded gatulefo_v128_load8x8_s(const uint8_t *memory, size_t memory_length, uint64_t ptr, uint64_t offset);

/* Eight bytes as 8 lanes of 8 bits, signed, each widened to twice its bits.
 * (number result.vector, result.shortfall, result.refused) ≡ access_numbers (load_widen extend_s 8 memory.now address) */
gatulefo_loaded gatulefo_v128_load8x8_s_at(const uint8_t *memory, size_t memory_length, size_t address);

/* Eight bytes as 8 lanes of 8 bits, unsigned, each widened to twice its bits.
 * (number result.vector, result.shortfall, result.refused) ≡ access_numbers (load_widen extend_u 8 memory.now (ptr + offset)) */
gatulefo_loaded gatulefo_v128_load8x8_u(const uint8_t *memory, size_t memory_length, uint64_t ptr, uint64_t offset);

/* Eight bytes as 8 lanes of 8 bits, unsigned, each widened to twice its bits.
 * (number result.vector, result.shortfall, result.refused) ≡ access_numbers (load_widen extend_u 8 memory.now address) */
gatulefo_loaded gatulefo_v128_load8x8_u_at(const uint8_t *memory, size_t memory_length, size_t address);

/* Eight bytes as 4 lanes of 16 bits, signed, each widened to twice its bits.
 * (number result.vector, result.shortfall, result.refused) ≡ access_numbers (load_widen extend_s 16 memory.now (ptr + offset)) */
gatulefo_loaded gatulefo_v128_load16x4_s(const uint8_t *memory, size_t memory_length, uint64_t ptr, uint64_t offset);

/* Eight bytes as 4 lanes of 16 bits, signed, each widened to twice its bits.
 * (number result.vector, result.shortfall, result.refused) ≡ access_numbers (load_widen extend_s 16 memory.now address) */
gatulefo_loaded gatulefo_v128_load16x4_s_at(const uint8_t *memory, size_t memory_length, size_t address);

/* Eight bytes as 4 lanes of 16 bits, unsigned, each widened to twice its bits.
 * (number result.vector, result.shortfall, result.refused) ≡ access_numbers (load_widen extend_u 16 memory.now (ptr + offset)) */
gatulefo_loaded gatulefo_v128_load16x4_u(const uint8_t *memory, size_t memory_length, uint64_t ptr, uint64_t offset);

/* Eight bytes as 4 lanes of 16 bits, unsigned, each widened to twice its bits.
 * (number result.vector, result.shortfall, result.refused) ≡ access_numbers (load_widen extend_u 16 memory.now address) */
gatulefo_loaded gatulefo_v128_load16x4_u_at(const uint8_t *memory, size_t memory_length, size_t address);

/* Eight bytes as 2 lanes of 32 bits, signed, each widened to twice its bits.
 * (number result.vector, result.shortfall, result.refused) ≡ access_numbers (load_widen extend_s 32 memory.now (ptr + offset)) */
gatulefo_loaded gatulefo_v128_load32x2_s(const uint8_t *memory, size_t memory_length, uint64_t ptr, uint64_t offset);

/* Eight bytes as 2 lanes of 32 bits, signed, each widened to twice its bits.
 * (number result.vector, result.shortfall, result.refused) ≡ access_numbers (load_widen extend_s 32 memory.now address) */
gatulefo_loaded gatulefo_v128_load32x2_s_at(const uint8_t *memory, size_t memory_length, size_t address);

/* Eight bytes as 2 lanes of 32 bits, unsigned, each widened to twice its bits.
 * (number result.vector, result.shortfall, result.refused) ≡ access_numbers (load_widen extend_u 32 memory.now (ptr + offset)) */
gatulefo_loaded gatulefo_v128_load32x2_u(const uint8_t *memory, size_t memory_length, uint64_t ptr, uint64_t offset);

/* Eight bytes as 2 lanes of 32 bits, unsigned, each widened to twice its bits.
 * (number result.vector, result.shortfall, result.refused) ≡ access_numbers (load_widen extend_u 32 memory.now address) */
gatulefo_loaded gatulefo_v128_load32x2_u_at(const uint8_t *memory, size_t memory_length, size_t address);

/* The vector with the lane at a number replaced by 8 bits of the memory.
 * (number result.vector, result.shortfall, result.refused) ≡ access_numbers (load_lane 8 (number x) lane memory.now (ptr + offset)) */
gatulefo_loaded gatulefo_v128_load8_lane(const uint8_t *memory, size_t memory_length, uint64_t ptr, uint64_t offset, gatulefo_v128 x, uint8_t lane);

/* The vector with the lane at a number replaced by 8 bits of the memory.
 * (number result.vector, result.shortfall, result.refused) ≡ access_numbers (load_lane 8 (number x) lane memory.now address) */
gatulefo_loaded gatulefo_v128_load8_lane_at(const uint8_t *memory, size_t memory_length, size_t address, gatulefo_v128 x, uint8_t lane);

/* The vector with the lane at a number replaced by 16 bits of the memory.
 * (number result.vector, result.shortfall, result.refused) ≡ access_numbers (load_lane 16 (number x) lane memory.now (ptr + offset)) */
gatulefo_loaded gatulefo_v128_load16_lane(const uint8_t *memory, size_t memory_length, uint64_t ptr, uint64_t offset, gatulefo_v128 x, uint8_t lane);

/* The vector with the lane at a number replaced by 16 bits of the memory.
 * (number result.vector, result.shortfall, result.refused) ≡ access_numbers (load_lane 16 (number x) lane memory.now address) */
gatulefo_loaded gatulefo_v128_load16_lane_at(const uint8_t *memory, size_t memory_length, size_t address, gatulefo_v128 x, uint8_t lane);

/* The vector with the lane at a number replaced by 32 bits of the memory.
 * (number result.vector, result.shortfall, result.refused) ≡ access_numbers (load_lane 32 (number x) lane memory.now (ptr + offset)) */
gatulefo_loaded gatulefo_v128_load32_lane(const uint8_t *memory, size_t memory_length, uint64_t ptr, uint64_t offset, gatulefo_v128 x, uint8_t lane);

/* The vector with the lane at a number replaced by 32 bits of the memory.
 * (number result.vector, result.shortfall, result.refused) ≡ access_numbers (load_lane 32 (number x) lane memory.now address) */
gatulefo_loaded gatulefo_v128_load32_lane_at(const uint8_t *memory, size_t memory_length, size_t address, gatulefo_v128 x, uint8_t lane);

/* The vector with the lane at a number replaced by 64 bits of the memory.
 * (number result.vector, result.shortfall, result.refused) ≡ access_numbers (load_lane 64 (number x) lane memory.now (ptr + offset)) */
gatulefo_loaded gatulefo_v128_load64_lane(const uint8_t *memory, size_t memory_length, uint64_t ptr, uint64_t offset, gatulefo_v128 x, uint8_t lane);

/* The vector with the lane at a number replaced by 64 bits of the memory.
 * (number result.vector, result.shortfall, result.refused) ≡ access_numbers (load_lane 64 (number x) lane memory.now address) */
gatulefo_loaded gatulefo_v128_load64_lane_at(const uint8_t *memory, size_t memory_length, size_t address, gatulefo_v128 x, uint8_t lane);

/* Loads that hand back the vector alone, in two registers: 0 where the load is refused. Whether a 0 is a refusal, `gatulefo_shortfall` says. For an interpreter
 * whose handlers end in a jump to the next, since a handler that lends a place on its stack cannot. The address of an `_at` function is `ptr`, with the
 * offset 0. */

/* The vector alone, 0 where it is refused. Sixteen bytes, low byte first.
 * number result ≡ access_or_zero (load 16 memory.now (ptr + offset)) */
gatulefo_v128 gatulefo_value_v128_load(const uint8_t *memory, size_t memory_length, uint64_t ptr, uint64_t offset);

/* The vector alone, 0 where it is refused. 32 bits, low byte first, and zeros above.
 * number result ≡ access_or_zero (load 4 memory.now (ptr + offset)) */
gatulefo_v128 gatulefo_value_v128_load32_zero(const uint8_t *memory, size_t memory_length, uint64_t ptr, uint64_t offset);

/* The vector alone, 0 where it is refused. 64 bits, low byte first, and zeros above.
 * number result ≡ access_or_zero (load 8 memory.now (ptr + offset)) */
gatulefo_v128 gatulefo_value_v128_load64_zero(const uint8_t *memory, size_t memory_length, uint64_t ptr, uint64_t offset);

/* The vector alone, 0 where it is refused. 8 bits, low byte first, in every lane.
 * number result ≡ access_or_zero (load_splat 8 memory.now (ptr + offset)) */
gatulefo_v128 gatulefo_value_v128_load8_splat(const uint8_t *memory, size_t memory_length, uint64_t ptr, uint64_t offset);

/* The vector alone, 0 where it is refused. 16 bits, low byte first, in every lane.
 * number result ≡ access_or_zero (load_splat 16 memory.now (ptr + offset)) */
gatulefo_v128 gatulefo_value_v128_load16_splat(const uint8_t *memory, size_t memory_length, uint64_t ptr, uint64_t offset);

/* The vector alone, 0 where it is refused. 32 bits, low byte first, in every lane.
 * number result ≡ access_or_zero (load_splat 32 memory.now (ptr + offset)) */
gatulefo_v128 gatulefo_value_v128_load32_splat(const uint8_t *memory, size_t memory_length, uint64_t ptr, uint64_t offset);

/* The vector alone, 0 where it is refused. 64 bits, low byte first, in every lane.
 * number result ≡ access_or_zero (load_splat 64 memory.now (ptr + offset)) */
gatulefo_v128 gatulefo_value_v128_load64_splat(const uint8_t *memory, size_t memory_length, uint64_t ptr, uint64_t offset);

/* The vector alone, 0 where it is refused. Eight bytes as 8 lanes of 8 bits, signed, each widened to twice its bits.
 * number result ≡ access_or_zero (load_widen extend_s 8 memory.now (ptr + offset)) */
gatulefo_v128 gatulefo_value_v128_load8x8_s(const uint8_t *memory, size_t memory_length, uint64_t ptr, uint64_t offset);

/* The vector alone, 0 where it is refused. Eight bytes as 8 lanes of 8 bits, unsigned, each widened to twice its bits.
 * number result ≡ access_or_zero (load_widen extend_u 8 memory.now (ptr + offset)) */
gatulefo_v128 gatulefo_value_v128_load8x8_u(const uint8_t *memory, size_t memory_length, uint64_t ptr, uint64_t offset);

/* The vector alone, 0 where it is refused. Eight bytes as 4 lanes of 16 bits, signed, each widened to twice its bits.
 * number result ≡ access_or_zero (load_widen extend_s 16 memory.now (ptr + offset)) */
gatulefo_v128 gatulefo_value_v128_load16x4_s(const uint8_t *memory, size_t memory_length, uint64_t ptr, uint64_t offset);

/* The vector alone, 0 where it is refused. Eight bytes as 4 lanes of 16 bits, unsigned, each widened to twice its bits.
 * number result ≡ access_or_zero (load_widen extend_u 16 memory.now (ptr + offset)) */
gatulefo_v128 gatulefo_value_v128_load16x4_u(const uint8_t *memory, size_t memory_length, uint64_t ptr, uint64_t offset);

/* The vector alone, 0 where it is refused. Eight bytes as 2 lanes of 32 bits, signed, each widened to twice its bits.
 * number result ≡ access_or_zero (load_widen extend_s 32 memory.now (ptr + offset)) */
gatulefo_v128 gatulefo_value_v128_load32x2_s(const uint8_t *memory, size_t memory_length, uint64_t ptr, uint64_t offset);

/* The vector alone, 0 where it is refused. Eight bytes as 2 lanes of 32 bits, unsigned, each widened to twice its bits.
 * number result ≡ access_or_zero (load_widen extend_u 32 memory.now (ptr + offset)) */
gatulefo_v128 gatulefo_value_v128_load32x2_u(const uint8_t *memory, size_t memory_length, uint64_t ptr, uint64_t offset);

/* The vector alone, 0 where it is refused. The vector with the lane at a number replaced by 8 bits of the memory.
 * number result ≡ access_or_zero (load_lane 8 (number x) lane memory.now (ptr + offset)) */
gatulefo_v128 gatulefo_value_v128_load8_lane(const uint8_t *memory, size_t memory_length, uint64_t ptr, uint64_t offset, gatulefo_v128 x, uint8_t lane);

/* The vector alone, 0 where it is refused. The vector with the lane at a number replaced by 16 bits of the memory.
 * number result ≡ access_or_zero (load_lane 16 (number x) lane memory.now (ptr + offset)) */
gatulefo_v128 gatulefo_value_v128_load16_lane(const uint8_t *memory, size_t memory_length, uint64_t ptr, uint64_t offset, gatulefo_v128 x, uint8_t lane);

/* The vector alone, 0 where it is refused. The vector with the lane at a number replaced by 32 bits of the memory.
 * number result ≡ access_or_zero (load_lane 32 (number x) lane memory.now (ptr + offset)) */
gatulefo_v128 gatulefo_value_v128_load32_lane(const uint8_t *memory, size_t memory_length, uint64_t ptr, uint64_t offset, gatulefo_v128 x, uint8_t lane);

/* The vector alone, 0 where it is refused. The vector with the lane at a number replaced by 64 bits of the memory.
 * number result ≡ access_or_zero (load_lane 64 (number x) lane memory.now (ptr + offset)) */
gatulefo_v128 gatulefo_value_v128_load64_lane(const uint8_t *memory, size_t memory_length, uint64_t ptr, uint64_t offset, gatulefo_v128 x, uint8_t lane);

/* The packed forms: each half as one number, with the answers of the functions of the same names. */

/* By the packed form. The sums of two 64-bit lanes, modulo 2^64.
 * number result ≡ binary 64 (iadd 64) (number a) (number b) */
gatulefo_v128 gatulefo_packed_i64x2_add(gatulefo_v128 a, gatulefo_v128 b);

/* By the packed form. The sums of four 32-bit lanes, modulo 2^32.
 * number result ≡ binary 32 (iadd 32) (number a) (number b) */
gatulefo_v128 gatulefo_packed_i32x4_add(gatulefo_v128 a, gatulefo_v128 b);

/* By the packed form. The sums of eight 16-bit lanes, modulo 2^16.
 * number result ≡ binary 16 (iadd 16) (number a) (number b) */
gatulefo_v128 gatulefo_packed_i16x8_add(gatulefo_v128 a, gatulefo_v128 b);

/* By the packed form. The sums of sixteen 8-bit lanes, modulo 2^8.
 * number result ≡ binary 8 (iadd 8) (number a) (number b) */
gatulefo_v128 gatulefo_packed_i8x16_add(gatulefo_v128 a, gatulefo_v128 b);

/* By the packed form. The differences, first minus second, of two 64-bit lanes, modulo 2^64.
 * number result ≡ binary 64 (isub 64) (number a) (number b) */
gatulefo_v128 gatulefo_packed_i64x2_sub(gatulefo_v128 a, gatulefo_v128 b);

/* By the packed form. The differences, first minus second, of four 32-bit lanes, modulo 2^32.
 * number result ≡ binary 32 (isub 32) (number a) (number b) */
gatulefo_v128 gatulefo_packed_i32x4_sub(gatulefo_v128 a, gatulefo_v128 b);

/* By the packed form. The differences, first minus second, of eight 16-bit lanes, modulo 2^16.
 * number result ≡ binary 16 (isub 16) (number a) (number b) */
gatulefo_v128 gatulefo_packed_i16x8_sub(gatulefo_v128 a, gatulefo_v128 b);

/* By the packed form. The differences, first minus second, of sixteen 8-bit lanes, modulo 2^8.
 * number result ≡ binary 8 (isub 8) (number a) (number b) */
gatulefo_v128 gatulefo_packed_i8x16_sub(gatulefo_v128 a, gatulefo_v128 b);

/* By the packed form. (a + b + 1) / 2 of each two of sixteen 8-bit lanes, unsigned, rounded down.
 * number result ≡ binary 8 (iavgr_u 8) (number a) (number b) */
gatulefo_v128 gatulefo_packed_i8x16_avgr_u(gatulefo_v128 a, gatulefo_v128 b);

/* By the packed form. (a + b + 1) / 2 of each two of eight 16-bit lanes, unsigned, rounded down.
 * number result ≡ binary 16 (iavgr_u 16) (number a) (number b) */
gatulefo_v128 gatulefo_packed_i16x8_avgr_u(gatulefo_v128 a, gatulefo_v128 b);

/* By the packed form. The negations of two 64-bit lanes, modulo 2^64.
 * number result ≡ unary 64 (ineg 64) (number a) */
gatulefo_v128 gatulefo_packed_i64x2_neg(gatulefo_v128 a);

/* By the packed form. The negations of four 32-bit lanes, modulo 2^32.
 * number result ≡ unary 32 (ineg 32) (number a) */
gatulefo_v128 gatulefo_packed_i32x4_neg(gatulefo_v128 a);

/* By the packed form. The negations of eight 16-bit lanes, modulo 2^16.
 * number result ≡ unary 16 (ineg 16) (number a) */
gatulefo_v128 gatulefo_packed_i16x8_neg(gatulefo_v128 a);

/* By the packed form. The negations of sixteen 8-bit lanes, modulo 2^8.
 * number result ≡ unary 8 (ineg 8) (number a) */
gatulefo_v128 gatulefo_packed_i8x16_neg(gatulefo_v128 a);

/* By the packed form. How many bits are one, in each of sixteen 8-bit lanes.
 * number result ≡ unary 8 (ipopcnt 8) (number a) */
gatulefo_v128 gatulefo_packed_i8x16_popcnt(gatulefo_v128 a);

/* By the packed form. All ones in each of sixteen 8-bit lanes where the first is equal to the second, else zeros.
 * number result ≡ binary 8 (ieq 8) (number a) (number b) */
gatulefo_v128 gatulefo_packed_i8x16_eq(gatulefo_v128 a, gatulefo_v128 b);

/* By the packed form. All ones in each of eight 16-bit lanes where the first is equal to the second, else zeros.
 * number result ≡ binary 16 (ieq 16) (number a) (number b) */
gatulefo_v128 gatulefo_packed_i16x8_eq(gatulefo_v128 a, gatulefo_v128 b);

/* By the packed form. All ones in each of four 32-bit lanes where the first is equal to the second, else zeros.
 * number result ≡ binary 32 (ieq 32) (number a) (number b) */
gatulefo_v128 gatulefo_packed_i32x4_eq(gatulefo_v128 a, gatulefo_v128 b);

/* By the packed form. All ones in each of two 64-bit lanes where the first is equal to the second, else zeros.
 * number result ≡ binary 64 (ieq 64) (number a) (number b) */
gatulefo_v128 gatulefo_packed_i64x2_eq(gatulefo_v128 a, gatulefo_v128 b);

/* By the packed form. Each of sixteen 8-bit lanes shifted left by the count modulo the lane's width.
 * number result ≡ unary 8 (ishl 8 count) (number a) */
gatulefo_v128 gatulefo_packed_i8x16_shl(gatulefo_v128 a, uint32_t count);

/* By the packed form. Each of eight 16-bit lanes shifted left by the count modulo the lane's width.
 * number result ≡ unary 16 (ishl 16 count) (number a) */
gatulefo_v128 gatulefo_packed_i16x8_shl(gatulefo_v128 a, uint32_t count);

/* By the packed form. Each of four 32-bit lanes shifted left by the count modulo the lane's width.
 * number result ≡ unary 32 (ishl 32 count) (number a) */
gatulefo_v128 gatulefo_packed_i32x4_shl(gatulefo_v128 a, uint32_t count);

/* By the packed form. Each of two 64-bit lanes shifted left by the count modulo the lane's width.
 * number result ≡ unary 64 (ishl 64 count) (number a) */
gatulefo_v128 gatulefo_packed_i64x2_shl(gatulefo_v128 a, uint32_t count);

/* By the packed form. Each of sixteen 8-bit lanes shifted right by the count modulo the lane's width; zeros come in.
 * number result ≡ unary 8 (ishr_u 8 count) (number a) */
gatulefo_v128 gatulefo_packed_i8x16_shr_u(gatulefo_v128 a, uint32_t count);

/* By the packed form. Each of eight 16-bit lanes shifted right by the count modulo the lane's width; zeros come in.
 * number result ≡ unary 16 (ishr_u 16 count) (number a) */
gatulefo_v128 gatulefo_packed_i16x8_shr_u(gatulefo_v128 a, uint32_t count);

/* By the packed form. Each of four 32-bit lanes shifted right by the count modulo the lane's width; zeros come in.
 * number result ≡ unary 32 (ishr_u 32 count) (number a) */
gatulefo_v128 gatulefo_packed_i32x4_shr_u(gatulefo_v128 a, uint32_t count);

/* By the packed form. Each of two 64-bit lanes shifted right by the count modulo the lane's width; zeros come in.
 * number result ≡ unary 64 (ishr_u 64 count) (number a) */
gatulefo_v128 gatulefo_packed_i64x2_shr_u(gatulefo_v128 a, uint32_t count);

/* By the packed form. Whether none of sixteen 8-bit lanes is zero.
 * cond result 1 0 ≡ all_true 8 (number a) */
bool gatulefo_packed_i8x16_all_true(gatulefo_v128 a);

/* By the packed form. Whether none of eight 16-bit lanes is zero.
 * cond result 1 0 ≡ all_true 16 (number a) */
bool gatulefo_packed_i16x8_all_true(gatulefo_v128 a);

/* By the packed form. Whether none of four 32-bit lanes is zero.
 * cond result 1 0 ≡ all_true 32 (number a) */
bool gatulefo_packed_i32x4_all_true(gatulefo_v128 a);

/* By the packed form. Whether none of two 64-bit lanes is zero.
 * cond result 1 0 ≡ all_true 64 (number a) */
bool gatulefo_packed_i64x2_all_true(gatulefo_v128 a);

/* By the packed form. Bit i is the top bit of lane i of sixteen 8-bit lanes.
 * result ≡ bitmask 8 (number a) */
uint32_t gatulefo_packed_i8x16_bitmask(gatulefo_v128 a);

/* By the packed form. Bit i is the top bit of lane i of eight 16-bit lanes.
 * result ≡ bitmask 16 (number a) */
uint32_t gatulefo_packed_i16x8_bitmask(gatulefo_v128 a);

/* By the packed form. Bit i is the top bit of lane i of four 32-bit lanes.
 * result ≡ bitmask 32 (number a) */
uint32_t gatulefo_packed_i32x4_bitmask(gatulefo_v128 a);

/* By the packed form. Bit i is the top bit of lane i of two 64-bit lanes.
 * result ≡ bitmask 64 (number a) */
uint32_t gatulefo_packed_i64x2_bitmask(gatulefo_v128 a);

/* By the packed form. Whether any bit is one.
 * cond result 1 0 ≡ any_true (number a) */
bool gatulefo_packed_v128_any_true(gatulefo_v128 a);

/* Lanes of 8 bits in another order: swizzle by the lanes of a second vector, shuffle of two vectors by sixteen indices. An index above 31 is refused with 5.
 * Behind `gatulefo_value_` the indices are the lanes of a third vector, and what comes back is the vector alone, 0 where it is refused. */

/* Sixteen bytes picked from two vectors: indices 0 to 15 name the bytes of the first, 16 to 31 those of the second.
 * (number result.vector, result.refused) ≡ pair (at_indices s.now (shuffle s.now (number a) (number b))) */
gatulefo_vector_or_refusal gatulefo_i8x16_shuffle(gatulefo_v128 a, gatulefo_v128 b, const uint8_t s[16]);

/* The vector alone, 0 where it is refused. Sixteen bytes picked from two vectors: indices 0 to 15 name the bytes of the first, 16 to 31 those of the second.
 * number result ≡ or_zero (at_indices (lanes 8 (number s)) (shuffle (lanes 8 (number s)) (number a) (number b))) */
gatulefo_v128 gatulefo_value_i8x16_shuffle(gatulefo_v128 a, gatulefo_v128 b, gatulefo_v128 s);

/* The bytes of the first vector picked by those of the second; an index of 16 or more gives 0.
 * number result ≡ swizzle (number a) (number s) */
gatulefo_v128 gatulefo_i8x16_swizzle(gatulefo_v128 a, gatulefo_v128 s);

/* Field recordings (document 02, orders 8 and 10): a list's run recorded, a recording replayed, and a damaged one mended. */

/* Runs the list from zero registers and i32 0, and writes its recording to `out`, which 18,944 bytes are enough for.
 * (record_numbers result, out.new) ≡ left_by_recorder (recorded list.now out.old) */
gatulefo_record_answer gatulefo_record(const uint8_t *list, size_t list_length, uint8_t *out, size_t out_length);

/* Whether every record of a recording is what the calculator's definition gives.
 * replay_numbers result ≡ replayed (replay file.now) */
gatulefo_replay_answer gatulefo_replay(const uint8_t *file, size_t file_length);

/* Puts back a flipped bit of each block of a recording, and writes the blocks to `out`, up to the first that cannot be mended.
 * (mended_of result, out.new) ≡ mending file.now out.old */
gatulefo_mend_answer gatulefo_mend(const uint8_t *file, size_t file_length, uint8_t *out, size_t out_length);

/* Reductions: one number from all lanes of a vector. */

/* Whether none of sixteen 8-bit lanes is zero.
 * cond result 1 0 ≡ all_true 8 (number v) */
bool gatulefo_i8x16_all_true(gatulefo_v128 v);

/* Whether none of eight 16-bit lanes is zero.
 * cond result 1 0 ≡ all_true 16 (number v) */
bool gatulefo_i16x8_all_true(gatulefo_v128 v);

/* Whether none of four 32-bit lanes is zero.
 * cond result 1 0 ≡ all_true 32 (number v) */
bool gatulefo_i32x4_all_true(gatulefo_v128 v);

/* Whether none of two 64-bit lanes is zero.
 * cond result 1 0 ≡ all_true 64 (number v) */
bool gatulefo_i64x2_all_true(gatulefo_v128 v);

/* Bit i is the top bit of lane i of sixteen 8-bit lanes.
 * result ≡ bitmask 8 (number v) */
uint32_t gatulefo_i8x16_bitmask(gatulefo_v128 v);

/* Bit i is the top bit of lane i of eight 16-bit lanes.
 * result ≡ bitmask 16 (number v) */
uint32_t gatulefo_i16x8_bitmask(gatulefo_v128 v);

/* Bit i is the top bit of lane i of four 32-bit lanes.
 * result ≡ bitmask 32 (number v) */
uint32_t gatulefo_i32x4_bitmask(gatulefo_v128 v);

/* Bit i is the top bit of lane i of two 64-bit lanes.
 * result ≡ bitmask 64 (number v) */
uint32_t gatulefo_i64x2_bitmask(gatulefo_v128 v);

/* Whether any bit is one.
 * cond result 1 0 ≡ any_true (number v) */
bool gatulefo_v128_any_true(gatulefo_v128 v);

/* The relaxed instructions of WebAssembly 3.0 that are carried over, each as the Rust chooses: the plain operation, and the two dots. What 3.0 allows, and
 * that each answer is among it, but for dots that meet four −128, is the crate `lane_relaxed_theorems`. */

/* The sums of two neighbouring products of sixteen 8-bit lanes, signed, modulo 2^16.
 * number result ≡ relaxed_dot (number lhs) (number rhs) */
gatulefo_v128 gatulefo_i16x8_relaxed_dot_i8x16_i7x16_s(gatulefo_v128 lhs, gatulefo_v128 rhs);

/* The sums of four neighbouring products of sixteen 8-bit lanes, signed, each two modulo 2^16, and of the third vector's lane, modulo 2^32.
 * number result ≡ relaxed_dot_add (number lhs) (number rhs) (number c) */
gatulefo_v128 gatulefo_i32x4_relaxed_dot_i8x16_i7x16_add_s(gatulefo_v128 lhs, gatulefo_v128 rhs, gatulefo_v128 c);

/* As i8x16_swizzle.
 * number result ≡ relaxed_swizzle (number a) (number s) */
gatulefo_v128 gatulefo_i8x16_relaxed_swizzle(gatulefo_v128 a, gatulefo_v128 s);

/* As v128_bitselect.
 * number result ≡ relaxed_laneselect (number a) (number b) (number c) */
gatulefo_v128 gatulefo_i8x16_relaxed_laneselect(gatulefo_v128 a, gatulefo_v128 b, gatulefo_v128 c);

/* As v128_bitselect.
 * number result ≡ relaxed_laneselect (number a) (number b) (number c) */
gatulefo_v128 gatulefo_i16x8_relaxed_laneselect(gatulefo_v128 a, gatulefo_v128 b, gatulefo_v128 c);

/* As v128_bitselect.
 * number result ≡ relaxed_laneselect (number a) (number b) (number c) */
gatulefo_v128 gatulefo_i32x4_relaxed_laneselect(gatulefo_v128 a, gatulefo_v128 b, gatulefo_v128 c);

/* As v128_bitselect.
 * number result ≡ relaxed_laneselect (number a) (number b) (number c) */
gatulefo_v128 gatulefo_i64x2_relaxed_laneselect(gatulefo_v128 a, gatulefo_v128 b, gatulefo_v128 c);

/* As the one without relaxed.
 * number result ≡ relaxed_min binary32 (number lhs) (number rhs) */
gatulefo_v128 gatulefo_f32x4_relaxed_min(gatulefo_v128 lhs, gatulefo_v128 rhs);

/* As the one without relaxed.
 * number result ≡ relaxed_max binary32 (number lhs) (number rhs) */
gatulefo_v128 gatulefo_f32x4_relaxed_max(gatulefo_v128 lhs, gatulefo_v128 rhs);

/* As the one without relaxed.
 * number result ≡ relaxed_min binary64 (number lhs) (number rhs) */
gatulefo_v128 gatulefo_f64x2_relaxed_min(gatulefo_v128 lhs, gatulefo_v128 rhs);

/* As the one without relaxed.
 * number result ≡ relaxed_max binary64 (number lhs) (number rhs) */
gatulefo_v128 gatulefo_f64x2_relaxed_max(gatulefo_v128 lhs, gatulefo_v128 rhs);

/* As i16x8_q15mulr_sat_s.
 * number result ≡ relaxed_q15mulr (number a) (number b) */
gatulefo_v128 gatulefo_i16x8_relaxed_q15mulr_s(gatulefo_v128 a, gatulefo_v128 b);

/* Replace: a new vector with one lane changed; a lane number not below the lane count is refused with 4. Behind `gatulefo_value_` the vector alone, 0 where it
 * is refused. */

/* The vector with one of its two 64-bit lanes replaced by the bits.
 * (number result.vector, result.refused) ≡ pair (at_lane 64 lane (replace 64 (number v) lane bits)) */
gatulefo_vector_or_refusal gatulefo_i64x2_replace_lane(gatulefo_v128 v, uint8_t lane, uint64_t bits);

/* The vector with one of its four 32-bit lanes replaced by the bits.
 * (number result.vector, result.refused) ≡ pair (at_lane 32 lane (replace 32 (number v) lane bits)) */
gatulefo_vector_or_refusal gatulefo_i32x4_replace_lane(gatulefo_v128 v, uint8_t lane, uint32_t bits);

/* The vector with one of its eight 16-bit lanes replaced by the bits.
 * (number result.vector, result.refused) ≡ pair (at_lane 16 lane (replace 16 (number v) lane bits)) */
gatulefo_vector_or_refusal gatulefo_i16x8_replace_lane(gatulefo_v128 v, uint8_t lane, uint16_t bits);

/* The vector with one of its sixteen 8-bit lanes replaced by the bits.
 * (number result.vector, result.refused) ≡ pair (at_lane 8 lane (replace 8 (number v) lane bits)) */
gatulefo_vector_or_refusal gatulefo_i8x16_replace_lane(gatulefo_v128 v, uint8_t lane, uint8_t bits);

/* The vector with one of its two double lanes replaced by the bits.
 * (number result.vector, result.refused) ≡ pair (at_lane 64 lane (replace 64 (number v) lane bits)) */
gatulefo_vector_or_refusal gatulefo_f64x2_replace_lane(gatulefo_v128 v, uint8_t lane, uint64_t bits);

/* The vector with one of its four float lanes replaced by the bits.
 * (number result.vector, result.refused) ≡ pair (at_lane 32 lane (replace 32 (number v) lane bits)) */
gatulefo_vector_or_refusal gatulefo_f32x4_replace_lane(gatulefo_v128 v, uint8_t lane, uint32_t bits);

/* The vector alone, 0 where it is refused. The vector with one of its two 64-bit lanes replaced by the bits.
 * number result ≡ or_zero (at_lane 64 lane (replace 64 (number v) lane bits)) */
gatulefo_v128 gatulefo_value_i64x2_replace_lane(gatulefo_v128 v, uint8_t lane, uint64_t bits);

/* The vector alone, 0 where it is refused. The vector with one of its four 32-bit lanes replaced by the bits.
 * number result ≡ or_zero (at_lane 32 lane (replace 32 (number v) lane bits)) */
gatulefo_v128 gatulefo_value_i32x4_replace_lane(gatulefo_v128 v, uint8_t lane, uint32_t bits);

/* The vector alone, 0 where it is refused. The vector with one of its eight 16-bit lanes replaced by the bits.
 * number result ≡ or_zero (at_lane 16 lane (replace 16 (number v) lane bits)) */
gatulefo_v128 gatulefo_value_i16x8_replace_lane(gatulefo_v128 v, uint8_t lane, uint16_t bits);

/* The vector alone, 0 where it is refused. The vector with one of its sixteen 8-bit lanes replaced by the bits.
 * number result ≡ or_zero (at_lane 8 lane (replace 8 (number v) lane bits)) */
gatulefo_v128 gatulefo_value_i8x16_replace_lane(gatulefo_v128 v, uint8_t lane, uint8_t bits);

/* The vector alone, 0 where it is refused. The vector with one of its two double lanes replaced by the bits.
 * number result ≡ or_zero (at_lane 64 lane (replace 64 (number v) lane bits)) */
gatulefo_v128 gatulefo_value_f64x2_replace_lane(gatulefo_v128 v, uint8_t lane, uint64_t bits);

/* The vector alone, 0 where it is refused. The vector with one of its four float lanes replaced by the bits.
 * number result ≡ or_zero (at_lane 32 lane (replace 32 (number v) lane bits)) */
gatulefo_v128 gatulefo_value_f32x4_replace_lane(gatulefo_v128 v, uint8_t lane, uint32_t bits);

/* i8x16 add, exclusive-or and popcnt over a lent row of vectors, written over the first row (document 02, order 6). A row is of 64-bit halves, two a vector,
 * the low one first. What comes back is the number of the refusal, 12 where the rows differ in length or a row has an odd number of halves, or 0; nothing is
 * written where there is one. */

/* Of a whole row, in place. The sums of sixteen 8-bit lanes, modulo 2^8.
 * result ≡ half_refusal (length first.old) (length second.now)
 * first.new ≡ after result (halves (zip (binary 8 (iadd 8)) (vectors first.old) (vectors second.now))) first.old */
uint8_t gatulefo_row_i8x16_add(uint64_t *first, size_t first_length, const uint64_t *second, size_t second_length);

/* Of a whole row, in place. Bitwise exclusive or.
 * result ≡ half_refusal (length first.old) (length second.now)
 * first.new ≡ after result (halves (zip (ixor 128) (vectors first.old) (vectors second.now))) first.old */
uint8_t gatulefo_row_v128_xor(uint64_t *first, size_t first_length, const uint64_t *second, size_t second_length);

/* Of a whole row, in place. How many bits are one, in each of sixteen 8-bit lanes.
 * result ≡ half_refusal (length first.old) (length first.old)
 * first.new ≡ after result (halves (map (unary 8 (ipopcnt 8)) (vectors first.old))) first.old */
uint8_t gatulefo_row_i8x16_popcnt(uint64_t *first, size_t first_length);

/* Captures of any length (document 02, order 5, every position): where a marker stands and stands again one frame later, in order, each once, from pieces of
 * any size. The caller keeps the state from one call to the next and lends a window of more than (length + 38) / 8 bytes, 8,197 for any length, and a table of
 * columns. Ask for meetings until there is none before the next piece is fed: then some bytes of each piece are taken. */

/* The columns of a marker and a tolerance, made once for a scan.
 * Columns marker tolerance table.new */
void gatulefo_scan_columns(uint64_t table[1280], uint32_t marker, uint32_t tolerance);

/* The state of a capture of which nothing has come.
 * (L : ℕ) (window : List ℕ) → 64 ≤ L → Stands L [] window (scan_in result) */
gatulefo_scan_state gatulefo_scan_start(void);

/* Takes as much of a piece as the window has room for.
 * (L : ℕ) (X : List ℕ) → Stands L X window.old (scan_in state) → Taken L X piece.now window.new (scan_in state) (fed_in result) */
gatulefo_fed_state gatulefo_scan_feed(uint8_t *window, size_t window_length, gatulefo_scan_state state, const uint8_t *piece, size_t piece_length);

/* The next meeting in what has come.
 * (X : List ℕ) → Stands length X window.now (scan_in state) → Columns marker tolerance table.now → Told marker tolerance length X window.now (scan_in state) (next_in result) */
gatulefo_meeting_or_none gatulefo_scan_next(const uint8_t *window, size_t window_length, gatulefo_scan_state state, const uint64_t table[1280], uint32_t marker, uint32_t tolerance, uint32_t length);

/* What the scan of a capture that has come whole ends with: 0, or the number of its refusal. `met` is whether anything was met. Of the first state it is 8 or 9
 * where the tolerance or the length is refused, and else 10: ask so before a scan begins.
 * (m X window : List ℕ) → Stands length X window (scan_in state) → met ≡ any (meetings (bits X) m tolerance length) → result ≡ ending (bits X) m tolerance length */
uint8_t gatulefo_scan_end(gatulefo_scan_state state, uint32_t tolerance, uint32_t length, bool met);

/* Shifts, the count taken modulo the lane width. */

/* Each of sixteen 8-bit lanes shifted left by the count modulo the lane's width.
 * number result ≡ unary 8 (ishl 8 count) (number v) */
gatulefo_v128 gatulefo_i8x16_shl(gatulefo_v128 v, uint32_t count);

/* Each of eight 16-bit lanes shifted left by the count modulo the lane's width.
 * number result ≡ unary 16 (ishl 16 count) (number v) */
gatulefo_v128 gatulefo_i16x8_shl(gatulefo_v128 v, uint32_t count);

/* Each of four 32-bit lanes shifted left by the count modulo the lane's width.
 * number result ≡ unary 32 (ishl 32 count) (number v) */
gatulefo_v128 gatulefo_i32x4_shl(gatulefo_v128 v, uint32_t count);

/* Each of two 64-bit lanes shifted left by the count modulo the lane's width.
 * number result ≡ unary 64 (ishl 64 count) (number v) */
gatulefo_v128 gatulefo_i64x2_shl(gatulefo_v128 v, uint32_t count);

/* Each of sixteen 8-bit lanes shifted right by the count modulo the lane's width; copies of the top bit come in.
 * number result ≡ unary 8 (ishr_s 8 count) (number v) */
gatulefo_v128 gatulefo_i8x16_shr_s(gatulefo_v128 v, uint32_t count);

/* Each of sixteen 8-bit lanes shifted right by the count modulo the lane's width; zeros come in.
 * number result ≡ unary 8 (ishr_u 8 count) (number v) */
gatulefo_v128 gatulefo_i8x16_shr_u(gatulefo_v128 v, uint32_t count);

/* Each of eight 16-bit lanes shifted right by the count modulo the lane's width; copies of the top bit come in.
 * number result ≡ unary 16 (ishr_s 16 count) (number v) */
gatulefo_v128 gatulefo_i16x8_shr_s(gatulefo_v128 v, uint32_t count);

/* Each of eight 16-bit lanes shifted right by the count modulo the lane's width; zeros come in.
 * number result ≡ unary 16 (ishr_u 16 count) (number v) */
gatulefo_v128 gatulefo_i16x8_shr_u(gatulefo_v128 v, uint32_t count);

/* Each of four 32-bit lanes shifted right by the count modulo the lane's width; copies of the top bit come in.
 * number result ≡ unary 32 (ishr_s 32 count) (number v) */
gatulefo_v128 gatulefo_i32x4_shr_s(gatulefo_v128 v, uint32_t count);

/* Each of four 32-bit lanes shifted right by the count modulo the lane's width; zeros come in.
 * number result ≡ unary 32 (ishr_u 32 count) (number v) */
gatulefo_v128 gatulefo_i32x4_shr_u(gatulefo_v128 v, uint32_t count);

/* Each of two 64-bit lanes shifted right by the count modulo the lane's width; copies of the top bit come in.
 * number result ≡ unary 64 (ishr_s 64 count) (number v) */
gatulefo_v128 gatulefo_i64x2_shr_s(gatulefo_v128 v, uint32_t count);

/* Each of two 64-bit lanes shifted right by the count modulo the lane's width; zeros come in.
 * number result ≡ unary 64 (ishr_u 64 count) (number v) */
gatulefo_v128 gatulefo_i64x2_shr_u(gatulefo_v128 v, uint32_t count);

/* How far past the end an access runs that is refused with 7 (document 02, order 9). Every load and store hands this back with its 7; here it is asked of an
 * access by itself. */

/* The exact end of the access of so many bytes minus the length of the memory, at most 2^64-1; 0 where the access is allowed. The address of an `_at` function
 * is `ptr`, with the offset 0.
 * result ≡ (access_numbers (within memory.now (ptr + offset) bytes (ptr + offset))).1 */
uint64_t gatulefo_shortfall(const uint8_t *memory, size_t memory_length, uint64_t ptr, uint64_t offset, size_t bytes);

/* Splat: every lane is the scalar. */

/* Every one of the two 64-bit lanes is the lowest bits of the number, as many as a lane has.
 * number result ≡ splat 64 bits */
gatulefo_v128 gatulefo_i64x2_splat(uint64_t bits);

/* Every one of the four 32-bit lanes is the lowest bits of the number, as many as a lane has.
 * number result ≡ splat 32 bits */
gatulefo_v128 gatulefo_i32x4_splat(uint32_t bits);

/* Every one of the eight 16-bit lanes is the lowest bits of the number, as many as a lane has.
 * number result ≡ splat 16 bits */
gatulefo_v128 gatulefo_i16x8_splat(uint16_t bits);

/* Every one of the sixteen 8-bit lanes is the lowest bits of the number, as many as a lane has.
 * number result ≡ splat 8 bits */
gatulefo_v128 gatulefo_i8x16_splat(uint8_t bits);

/* Every one of the four float lanes is the lowest bits of the number, as many as a lane has.
 * number result ≡ splat 32 bits */
gatulefo_v128 gatulefo_f32x4_splat(uint32_t bits);

/* Every one of the two double lanes is the lowest bits of the number, as many as a lane has.
 * number result ≡ splat 64 bits */
gatulefo_v128 gatulefo_f64x2_splat(uint64_t bits);

/* Stores. A lane store tests the lane, 4, before the bounds, 7, and with a 7 comes back how far past the end the access runs. */

/* Writes the vector as sixteen bytes, low byte first.
 * (result.shortfall, result.refused, memory.new) ≡ store_numbers (stored (store 16 (number value) memory.old (ptr + offset)) memory.old) */
gatulefo_stored gatulefo_v128_store(uint8_t *memory, size_t memory_length, uint64_t ptr, uint64_t offset, gatulefo_v128 value);

/* Writes the vector as sixteen bytes, low byte first.
 * (result.shortfall, result.refused, memory.new) ≡ store_numbers (stored (store 16 (number value) memory.old address) memory.old) */
gatulefo_stored gatulefo_v128_store_at(uint8_t *memory, size_t memory_length, size_t address, gatulefo_v128 value);

/* Writes the lane of 8 bits at a number, low byte first.
 * (result.shortfall, result.refused, memory.new) ≡ store_numbers (stored (store_lane 8 (number value) lane memory.old (ptr + offset)) memory.old) */
gatulefo_stored gatulefo_v128_store8_lane(uint8_t *memory, size_t memory_length, uint64_t ptr, uint64_t offset, gatulefo_v128 value, uint8_t lane);

/* Writes the lane of 8 bits at a number, low byte first.
 * (result.shortfall, result.refused, memory.new) ≡ store_numbers (stored (store_lane 8 (number value) lane memory.old address) memory.old) */
gatulefo_stored gatulefo_v128_store8_lane_at(uint8_t *memory, size_t memory_length, size_t address, gatulefo_v128 value, uint8_t lane);

/* Writes the lane of 16 bits at a number, low byte first.
 * (result.shortfall, result.refused, memory.new) ≡ store_numbers (stored (store_lane 16 (number value) lane memory.old (ptr + offset)) memory.old) */
gatulefo_stored gatulefo_v128_store16_lane(uint8_t *memory, size_t memory_length, uint64_t ptr, uint64_t offset, gatulefo_v128 value, uint8_t lane);

/* Writes the lane of 16 bits at a number, low byte first.
 * (result.shortfall, result.refused, memory.new) ≡ store_numbers (stored (store_lane 16 (number value) lane memory.old address) memory.old) */
gatulefo_stored gatulefo_v128_store16_lane_at(uint8_t *memory, size_t memory_length, size_t address, gatulefo_v128 value, uint8_t lane);

/* Writes the lane of 32 bits at a number, low byte first.
 * (result.shortfall, result.refused, memory.new) ≡ store_numbers (stored (store_lane 32 (number value) lane memory.old (ptr + offset)) memory.old) */
gatulefo_stored gatulefo_v128_store32_lane(uint8_t *memory, size_t memory_length, uint64_t ptr, uint64_t offset, gatulefo_v128 value, uint8_t lane);

/* Writes the lane of 32 bits at a number, low byte first.
 * (result.shortfall, result.refused, memory.new) ≡ store_numbers (stored (store_lane 32 (number value) lane memory.old address) memory.old) */
gatulefo_stored gatulefo_v128_store32_lane_at(uint8_t *memory, size_t memory_length, size_t address, gatulefo_v128 value, uint8_t lane);

/* Writes the lane of 64 bits at a number, low byte first.
 * (result.shortfall, result.refused, memory.new) ≡ store_numbers (stored (store_lane 64 (number value) lane memory.old (ptr + offset)) memory.old) */
gatulefo_stored gatulefo_v128_store64_lane(uint8_t *memory, size_t memory_length, uint64_t ptr, uint64_t offset, gatulefo_v128 value, uint8_t lane);

/* Writes the lane of 64 bits at a number, low byte first.
 * (result.shortfall, result.refused, memory.new) ≡ store_numbers (stored (store_lane 64 (number value) lane memory.old address) memory.old) */
gatulefo_stored gatulefo_v128_store64_lane_at(uint8_t *memory, size_t memory_length, size_t address, gatulefo_v128 value, uint8_t lane);

/* i8x16 add, exclusive-or and popcnt over a lent row of vectors, written over the first row (document 02, order 6), in the form that the order names: a row is
 * a slice of vectors. What comes back of two rows is the number of the refusal, 12 where they differ in length, or 0; nothing is written where there is one. */

/* Of a whole row, in place. The sums of sixteen 8-bit lanes, modulo 2^8.
 * Combined (binary 8 (iadd 8)) first.old second.now result first.new */
uint8_t gatulefo_vector_row_i8x16_add(gatulefo_v128 *first, size_t first_length, const gatulefo_v128 *second, size_t second_length);

/* Of a whole row, in place. Bitwise exclusive or.
 * Combined (ixor 128) first.old second.now result first.new */
uint8_t gatulefo_vector_row_v128_xor(gatulefo_v128 *first, size_t first_length, const gatulefo_v128 *second, size_t second_length);

/* Of a whole row, in place. How many bits are one, in each of sixteen 8-bit lanes.
 * Mapped (unary 8 (ipopcnt 8)) first.old first.new */
void gatulefo_vector_row_i8x16_popcnt(gatulefo_v128 *first, size_t first_length);

/* The version of the archive. */

/* Major times 1,000,000, minor times 1,000, patch. The header made with an archive has the same number as GATULEFO_VERSION.
 * result ≡ 3000 */
uint32_t gatulefo_version(void);

/* Lanes of one width from those of another: extending, extended products and sums, the dot product, narrowing, and what the widening loads do with
 * their bits. */

/* The low half of sixteen 8-bit lanes, signed, each widened to twice its bits.
 * number result ≡ extend low_half extend_s 8 (number v) */
gatulefo_v128 gatulefo_i16x8_extend_low_i8x16_s(gatulefo_v128 v);

/* The low half of sixteen 8-bit lanes, unsigned, each widened to twice its bits.
 * number result ≡ extend low_half extend_u 8 (number v) */
gatulefo_v128 gatulefo_i16x8_extend_low_i8x16_u(gatulefo_v128 v);

/* The low half of eight 16-bit lanes, signed, each widened to twice its bits.
 * number result ≡ extend low_half extend_s 16 (number v) */
gatulefo_v128 gatulefo_i32x4_extend_low_i16x8_s(gatulefo_v128 v);

/* The low half of eight 16-bit lanes, unsigned, each widened to twice its bits.
 * number result ≡ extend low_half extend_u 16 (number v) */
gatulefo_v128 gatulefo_i32x4_extend_low_i16x8_u(gatulefo_v128 v);

/* The low half of four 32-bit lanes, signed, each widened to twice its bits.
 * number result ≡ extend low_half extend_s 32 (number v) */
gatulefo_v128 gatulefo_i64x2_extend_low_i32x4_s(gatulefo_v128 v);

/* The low half of four 32-bit lanes, unsigned, each widened to twice its bits.
 * number result ≡ extend low_half extend_u 32 (number v) */
gatulefo_v128 gatulefo_i64x2_extend_low_i32x4_u(gatulefo_v128 v);

/* The high half of sixteen 8-bit lanes, signed, each widened to twice its bits.
 * number result ≡ extend high_half extend_s 8 (number v) */
gatulefo_v128 gatulefo_i16x8_extend_high_i8x16_s(gatulefo_v128 v);

/* The high half of sixteen 8-bit lanes, unsigned, each widened to twice its bits.
 * number result ≡ extend high_half extend_u 8 (number v) */
gatulefo_v128 gatulefo_i16x8_extend_high_i8x16_u(gatulefo_v128 v);

/* The high half of eight 16-bit lanes, signed, each widened to twice its bits.
 * number result ≡ extend high_half extend_s 16 (number v) */
gatulefo_v128 gatulefo_i32x4_extend_high_i16x8_s(gatulefo_v128 v);

/* The high half of eight 16-bit lanes, unsigned, each widened to twice its bits.
 * number result ≡ extend high_half extend_u 16 (number v) */
gatulefo_v128 gatulefo_i32x4_extend_high_i16x8_u(gatulefo_v128 v);

/* The high half of four 32-bit lanes, signed, each widened to twice its bits.
 * number result ≡ extend high_half extend_s 32 (number v) */
gatulefo_v128 gatulefo_i64x2_extend_high_i32x4_s(gatulefo_v128 v);

/* The high half of four 32-bit lanes, unsigned, each widened to twice its bits.
 * number result ≡ extend high_half extend_u 32 (number v) */
gatulefo_v128 gatulefo_i64x2_extend_high_i32x4_u(gatulefo_v128 v);

/* The exact products of the low halves of sixteen 8-bit lanes, signed, in eight 16-bit lanes.
 * number result ≡ extmul low_half extend_s 8 (number lhs) (number rhs) */
gatulefo_v128 gatulefo_i16x8_extmul_low_i8x16_s(gatulefo_v128 lhs, gatulefo_v128 rhs);

/* The exact products of the low halves of sixteen 8-bit lanes, unsigned, in eight 16-bit lanes.
 * number result ≡ extmul low_half extend_u 8 (number lhs) (number rhs) */
gatulefo_v128 gatulefo_i16x8_extmul_low_i8x16_u(gatulefo_v128 lhs, gatulefo_v128 rhs);

/* The exact products of the low halves of eight 16-bit lanes, signed, in four 32-bit lanes.
 * number result ≡ extmul low_half extend_s 16 (number lhs) (number rhs) */
gatulefo_v128 gatulefo_i32x4_extmul_low_i16x8_s(gatulefo_v128 lhs, gatulefo_v128 rhs);

/* The exact products of the low halves of eight 16-bit lanes, unsigned, in four 32-bit lanes.
 * number result ≡ extmul low_half extend_u 16 (number lhs) (number rhs) */
gatulefo_v128 gatulefo_i32x4_extmul_low_i16x8_u(gatulefo_v128 lhs, gatulefo_v128 rhs);

/* The exact products of the low halves of four 32-bit lanes, signed, in two 64-bit lanes.
 * number result ≡ extmul low_half extend_s 32 (number lhs) (number rhs) */
gatulefo_v128 gatulefo_i64x2_extmul_low_i32x4_s(gatulefo_v128 lhs, gatulefo_v128 rhs);

/* The exact products of the low halves of four 32-bit lanes, unsigned, in two 64-bit lanes.
 * number result ≡ extmul low_half extend_u 32 (number lhs) (number rhs) */
gatulefo_v128 gatulefo_i64x2_extmul_low_i32x4_u(gatulefo_v128 lhs, gatulefo_v128 rhs);

/* The exact products of the high halves of sixteen 8-bit lanes, signed, in eight 16-bit lanes.
 * number result ≡ extmul high_half extend_s 8 (number lhs) (number rhs) */
gatulefo_v128 gatulefo_i16x8_extmul_high_i8x16_s(gatulefo_v128 lhs, gatulefo_v128 rhs);

/* The exact products of the high halves of sixteen 8-bit lanes, unsigned, in eight 16-bit lanes.
 * number result ≡ extmul high_half extend_u 8 (number lhs) (number rhs) */
gatulefo_v128 gatulefo_i16x8_extmul_high_i8x16_u(gatulefo_v128 lhs, gatulefo_v128 rhs);

/* The exact products of the high halves of eight 16-bit lanes, signed, in four 32-bit lanes.
 * number result ≡ extmul high_half extend_s 16 (number lhs) (number rhs) */
gatulefo_v128 gatulefo_i32x4_extmul_high_i16x8_s(gatulefo_v128 lhs, gatulefo_v128 rhs);

/* The exact products of the high halves of eight 16-bit lanes, unsigned, in four 32-bit lanes.
 * number result ≡ extmul high_half extend_u 16 (number lhs) (number rhs) */
gatulefo_v128 gatulefo_i32x4_extmul_high_i16x8_u(gatulefo_v128 lhs, gatulefo_v128 rhs);

/* The exact products of the high halves of four 32-bit lanes, signed, in two 64-bit lanes.
 * number result ≡ extmul high_half extend_s 32 (number lhs) (number rhs) */
gatulefo_v128 gatulefo_i64x2_extmul_high_i32x4_s(gatulefo_v128 lhs, gatulefo_v128 rhs);

/* The exact products of the high halves of four 32-bit lanes, unsigned, in two 64-bit lanes.
 * number result ≡ extmul high_half extend_u 32 (number lhs) (number rhs) */
gatulefo_v128 gatulefo_i64x2_extmul_high_i32x4_u(gatulefo_v128 lhs, gatulefo_v128 rhs);

/* The exact sums of neighbours among sixteen 8-bit lanes, signed, in eight 16-bit lanes.
 * number result ≡ extadd_pairwise extend_s 8 (number v) */
gatulefo_v128 gatulefo_i16x8_extadd_pairwise_i8x16_s(gatulefo_v128 v);

/* The exact sums of neighbours among sixteen 8-bit lanes, unsigned, in eight 16-bit lanes.
 * number result ≡ extadd_pairwise extend_u 8 (number v) */
gatulefo_v128 gatulefo_i16x8_extadd_pairwise_i8x16_u(gatulefo_v128 v);

/* The exact sums of neighbours among eight 16-bit lanes, signed, in four 32-bit lanes.
 * number result ≡ extadd_pairwise extend_s 16 (number v) */
gatulefo_v128 gatulefo_i32x4_extadd_pairwise_i16x8_s(gatulefo_v128 v);

/* The exact sums of neighbours among eight 16-bit lanes, unsigned, in four 32-bit lanes.
 * number result ≡ extadd_pairwise extend_u 16 (number v) */
gatulefo_v128 gatulefo_i32x4_extadd_pairwise_i16x8_u(gatulefo_v128 v);

/* The eight 16-bit lanes of both vectors, read as signed, held to the signed range of half their bits; the first vector gives the low lanes.
 * number result ≡ narrow narrow_s 8 (number low) (number high) */
gatulefo_v128 gatulefo_i8x16_narrow_i16x8_s(gatulefo_v128 low, gatulefo_v128 high);

/* The eight 16-bit lanes of both vectors, read as signed, held to the unsigned range of half their bits; the first vector gives the low lanes.
 * number result ≡ narrow narrow_u 8 (number low) (number high) */
gatulefo_v128 gatulefo_i8x16_narrow_i16x8_u(gatulefo_v128 low, gatulefo_v128 high);

/* The four 32-bit lanes of both vectors, read as signed, held to the signed range of half their bits; the first vector gives the low lanes.
 * number result ≡ narrow narrow_s 16 (number low) (number high) */
gatulefo_v128 gatulefo_i16x8_narrow_i32x4_s(gatulefo_v128 low, gatulefo_v128 high);

/* The four 32-bit lanes of both vectors, read as signed, held to the unsigned range of half their bits; the first vector gives the low lanes.
 * number result ≡ narrow narrow_u 16 (number low) (number high) */
gatulefo_v128 gatulefo_i16x8_narrow_i32x4_u(gatulefo_v128 low, gatulefo_v128 high);

/* The sums of two neighbouring products of eight 16-bit lanes, signed, modulo 2^32.
 * number result ≡ dot 16 (number lhs) (number rhs) */
gatulefo_v128 gatulefo_i32x4_dot_i16x8_s(gatulefo_v128 lhs, gatulefo_v128 rhs);

/* The number in the low bits, and zeros above.
 * number result ≡ extend_u 32 128 bits */
gatulefo_v128 gatulefo_v128_low32_zero(uint32_t bits);

/* The number in the low bits, and zeros above.
 * number result ≡ extend_u 64 128 bits */
gatulefo_v128 gatulefo_v128_low64_zero(uint64_t bits);

/* The 8 lanes of 8 bits in the number, signed, each widened to twice its bits.
 * number result ≡ widen extend_s 8 bits */
gatulefo_v128 gatulefo_v128_widen8x8_s(uint64_t bits);

/* The 8 lanes of 8 bits in the number, unsigned, each widened to twice its bits.
 * number result ≡ widen extend_u 8 bits */
gatulefo_v128 gatulefo_v128_widen8x8_u(uint64_t bits);

/* The 4 lanes of 16 bits in the number, signed, each widened to twice its bits.
 * number result ≡ widen extend_s 16 bits */
gatulefo_v128 gatulefo_v128_widen16x4_s(uint64_t bits);

/* The 4 lanes of 16 bits in the number, unsigned, each widened to twice its bits.
 * number result ≡ widen extend_u 16 bits */
gatulefo_v128 gatulefo_v128_widen16x4_u(uint64_t bits);

/* The 2 lanes of 32 bits in the number, signed, each widened to twice its bits.
 * number result ≡ widen extend_s 32 bits */
gatulefo_v128 gatulefo_v128_widen32x2_s(uint64_t bits);

/* The 2 lanes of 32 bits in the number, unsigned, each widened to twice its bits.
 * number result ≡ widen extend_u 32 bits */
gatulefo_v128 gatulefo_v128_widen32x2_u(uint64_t bits);

#ifdef __cplusplus
}
#endif

#endif
