//! tail SHAPE, or tail: writes the names of the shapes
//!
//! A small interpreter whose handlers end in a call of the next one, as those of wasmi do: a comment in its simd.rs says that its dispatch relies on it. It
//! runs one shape of operation 4,000,000 times on a stack of 64 KiB, which overflows where a handler's last call is not a jump, and writes a sum of the
//! registers. There is a handler for each shape of signature among the functions of `simd`.

use gatulefo::simd::{self, ImmLaneIdx};
use gatulefo::{TrapCode, V128};
use std::process::ExitCode;
use std::thread;

/// Operations in the list, and how often it is gone through.
const OPERATIONS: usize = 1_000;
const ROUNDS: usize = 4_000;
const STACK: usize = 64 * 1024;

struct Op {
    handler: Handler,
    out: usize,
    a: usize,
    b: usize,
    lane: u8,
    ptr: u64,
}

/// What handlers hand on beside their arguments: the list's start, the rounds that are left, and why it stopped.
struct State {
    start: *const Op,
    rounds: usize,
    code: Option<TrapCode>,
}

type Handler = fn(&mut State, *const Op, *mut V128, *mut u8, usize) -> u32;

const SLOTS: usize = 16;
const MEMORY: usize = 48;

fn lane<const N: u8>(number: u8) -> ImmLaneIdx<N> {
    match ImmLaneIdx::try_from(number % N) {
        Ok(lane) => lane,
        Err(_) => unreachable!("a number modulo N is below it"),
    }
}

fn number(bits: u64) -> Result<V128, TrapCode> {
    Ok(V128::from(u128::from(bits)))
}

/// A handler for each shape: it reads operands from the slots, writes its result there, and calls the next.
macro_rules! handlers {
    ( $( fn $name:ident($op:ident, $get:ident, $memory:ident) = $value:expr; )* ) => {
        $(
            fn $name(state: &mut State, ip: *const Op, slots: *mut V128, memory: *mut u8, length: usize) -> u32 {
                // SAFETY: `ip` is of an operation of the list, whose slots are below SLOTS; the memory is of `length` bytes and lent to the interpreter alone.
                let ($op, $memory) = unsafe { (&*ip, std::slice::from_raw_parts_mut(memory, length)) };
                let $get = |slot: usize| unsafe { *slots.add(slot) };
                let _ = (&$memory, &$get);
                let result: Result<V128, TrapCode> = $value;
                match result {
                    Ok(value) => unsafe { *slots.add($op.out) = value },
                    Err(code) => {
                        state.code = Some(code);
                        return 1;
                    }
                }
                let next = unsafe { ip.add(1) };
                (unsafe { (*next).handler })(state, next, slots, memory, length)
            }
        )*
        const SHAPES: &[(&str, Handler)] = &[ $( (stringify!($name), $name) ),* ];
    };
}

handlers! {
    fn splat(op, get, memory) = Ok(simd::i8x16_splat(op.lane as i8));
    fn unary(op, get, memory) = Ok(simd::i8x16_popcnt(get(op.a)));
    fn binary(op, get, memory) = Ok(simd::i8x16_add(get(op.a), get(op.b)));
    fn ternary(op, get, memory) = Ok(simd::v128_bitselect(get(op.a), get(op.b), get(op.out)));
    fn shift(op, get, memory) = Ok(simd::i16x8_shl(get(op.a), u32::from(op.lane)));
    fn compare(op, get, memory) = Ok(simd::i32x4_lt_s(get(op.a), get(op.b)));
    fn narrow(op, get, memory) = Ok(simd::i8x16_narrow_i16x8_u(get(op.a), get(op.b)));
    fn convert(op, get, memory) = Ok(simd::f32x4_convert_i32x4_s(get(op.a)));
    fn float(op, get, memory) = Ok(simd::f64x2_add(get(op.a), get(op.b)));
    fn all_true(op, get, memory) = number(simd::i8x16_all_true(get(op.a)).into());
    fn bitmask(op, get, memory) = number(simd::i8x16_bitmask(get(op.a)).into());
    fn swizzle(op, get, memory) = Ok(simd::i8x16_swizzle(get(op.a), get(op.b)));
    fn shuffle(op, get, memory) = Ok(simd::i8x16_shuffle(get(op.a), get(op.b), get(op.out).as_u128().to_le_bytes().map(lane)));
    fn extract(op, get, memory) = number(simd::i32x4_extract_lane(get(op.a), lane(op.lane)) as u64);
    fn extract_float(op, get, memory) = number(simd::f64x2_extract_lane(get(op.a), lane(op.lane)).to_bits());
    fn replace(op, get, memory) = Ok(simd::i8x16_replace_lane(get(op.a), lane(op.lane), 5));
    fn replace_float(op, get, memory) = Ok(simd::f32x4_replace_lane(get(op.a), lane(op.lane), 5.0));
    fn load(op, get, memory) = simd::v128_load(memory, op.ptr, 3);
    fn load_at(op, get, memory) = simd::v128_load_at(memory, op.ptr as usize);
    fn load_splat(op, get, memory) = simd::v128_load8_splat(memory, op.ptr, 3);
    fn load_widen(op, get, memory) = simd::v128_load16x4_s(memory, op.ptr, 3);
    fn load_zero_at(op, get, memory) = simd::v128_load32_zero_at(memory, op.ptr as usize);
    fn load_lane(op, get, memory) = simd::v128_load8_lane(memory, op.ptr, 3, get(op.a), lane(op.lane));
    fn load_lane_at(op, get, memory) = simd::v128_load64_lane_at(memory, op.ptr as usize, get(op.a), lane(op.lane));
    fn store(op, get, memory) = simd::v128_store(memory, op.ptr, 3, get(op.a)).map(|()| get(op.a));
    fn store_at(op, get, memory) = simd::v128_store_at(memory, op.ptr as usize, get(op.a)).map(|()| get(op.a));
    fn store_lane(op, get, memory) = simd::v128_store8_lane(memory, op.ptr, 3, get(op.a), lane(op.lane)).map(|()| get(op.a));
    fn store_lane_at(op, get, memory) = simd::v128_store32_lane_at(memory, op.ptr as usize, get(op.a), lane(op.lane)).map(|()| get(op.a));
}

/// Goes through the list once more, or ends.
fn again(state: &mut State, _: *const Op, slots: *mut V128, memory: *mut u8, length: usize) -> u32 {
    state.rounds -= 1;
    if state.rounds == 0 {
        return 0;
    }
    // SAFETY: the list has at least one operation.
    (unsafe { (*state.start).handler })(state, state.start, slots, memory, length)
}

fn interpret(handler: Handler) -> (u32, u128) {
    let op = |i: usize| Op { handler, out: i % 7, a: i % 5, b: i % 3, lane: i as u8, ptr: (i % 29) as u64 };
    let mut list: Vec<Op> = (0..OPERATIONS).map(op).collect();
    list.push(Op { handler: again, ..op(0) });
    let mut slots: Vec<V128> = (0..SLOTS as u128).map(|i| V128::from(i * 0x0123_4567_89ab_cdef_0f1e_2d3c_4b5a_6978)).collect();
    let mut memory = vec![7; MEMORY];
    let mut state = State { start: list.as_ptr(), rounds: ROUNDS, code: None };
    let end = handler(&mut state, list.as_ptr(), slots.as_mut_ptr(), memory.as_mut_ptr(), MEMORY);
    (end + u32::from(state.code.is_some()), slots.iter().fold(0, |sum, v| sum ^ v.as_u128()))
}

fn main() -> ExitCode {
    let Some(wanted) = std::env::args().nth(1) else {
        SHAPES.iter().for_each(|(name, _)| println!("{name}"));
        return ExitCode::SUCCESS;
    };
    let Some(&(name, handler)) = SHAPES.iter().find(|(name, _)| *name == wanted) else {
        eprintln!("tail: no shape {wanted}");
        return ExitCode::from(2);
    };
    let interpreter = thread::Builder::new().stack_size(STACK).spawn(move || interpret(handler)).expect("a thread");
    let (end, sum) = interpreter.join().expect("no panic");
    println!("{name}: {} operations, end {end}, {sum:032x}", OPERATIONS * ROUNDS);
    ExitCode::SUCCESS
}
