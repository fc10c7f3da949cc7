//! The machine that runs the Rust must not touch a NaN's bits: every float request of the generator, answered by the Rust, against
//! definitions on bits that use no float instruction.

use oracle::generate;
use oracle::table;
use oracle::wire::Request;

/// The number and the requests of a function.
fn requests(name: &str) -> Vec<Request> {
    let number = table::numbers().into_iter().find(|number| table::name(*number) == name).expect(name);
    let shape = table::entry(number).expect("a function").shape;
    generate::function(number, shape).requests.iter().map(Request::from_bytes).collect()
}

/// A float format: the lane's width, the bits of infinity.
#[derive(Clone, Copy)]
struct Format {
    shape: &'static str,
    bytes: usize,
    infinity: u64,
}

const FORMATS: [Format; 2] =
    [Format { shape: "f32x4", bytes: 4, infinity: 0x7f80_0000 }, Format { shape: "f64x2", bytes: 8, infinity: 0x7ff0_0000_0000_0000 }];

impl Format {
    fn sign(self) -> u64 {
        1 << (8 * self.bytes - 1)
    }

    fn ones(self) -> u64 {
        u64::MAX >> (64 - 8 * self.bytes)
    }

    fn lane(self, vector: &[u8], place: usize) -> u64 {
        let mut bytes = [0; 8];
        bytes[..self.bytes].copy_from_slice(&vector[place * self.bytes..(place + 1) * self.bytes]);
        u64::from_le_bytes(bytes)
    }

    /// The order of the numbers, by their bits; none for a NaN.
    fn order(self, bits: u64) -> Option<i64> {
        let size = (bits & !self.sign()) as i64;
        (size as u64 <= self.infinity).then_some(if bits & self.sign() == 0 { size } else { -size })
    }

    fn less(self, a: u64, b: u64) -> bool {
        matches!((self.order(a), self.order(b)), (Some(a), Some(b)) if a < b)
    }

    fn equal(self, a: u64, b: u64) -> bool {
        matches!((self.order(a), self.order(b)), (Some(a), Some(b)) if a == b)
    }

    /// Every lane of the answers against a definition.
    fn agrees(self, operation: &str, definition: impl Fn(u64, u64) -> u64) {
        let name = format!("{}_{operation}", self.shape);
        for request in requests(&name) {
            let answer = table::answer(&request);
            assert_eq!(answer[..2], [0, 1], "{name}");
            for place in 0..16 / self.bytes {
                let expected = definition(self.lane(&request.a, place), self.lane(&request.b, place));
                assert_eq!(self.lane(&answer[16..32], place), expected, "{name} {:02x?} {:02x?}", request.a, request.b);
            }
        }
    }

    fn compares(self, operation: &str, definition: impl Fn(u64, u64) -> bool) {
        self.agrees(operation, |a, b| if definition(a, b) { self.ones() } else { 0 });
    }
}

#[test]
fn signs_and_choices_keep_bits() {
    for format in FORMATS {
        format.agrees("neg", |a, _| a ^ format.sign());
        format.agrees("abs", |a, _| a & !format.sign());
        format.agrees("pmin", |a, b| if format.less(b, a) { b } else { a });
        format.agrees("pmax", |a, b| if format.less(a, b) { b } else { a });
    }
}

#[test]
fn comparisons_go_by_value() {
    for format in FORMATS {
        format.compares("eq", |a, b| format.equal(a, b));
        format.compares("ne", |a, b| !format.equal(a, b));
        format.compares("lt", |a, b| format.less(a, b));
        format.compares("gt", |a, b| format.less(b, a));
        format.compares("le", |a, b| format.less(a, b) || format.equal(a, b));
        format.compares("ge", |a, b| format.less(b, a) || format.equal(a, b));
    }
}

#[test]
fn moved_scalars_keep_bits() {
    for format in FORMATS {
        for request in requests(&format!("{}_splat", format.shape)) {
            let answer = table::answer(&request);
            (0..16 / format.bytes).for_each(|place| assert_eq!(format.lane(&answer[16..32], place), request.scalar & format.ones()));
        }
        let valid = |request: &Request| usize::from(request.lane) < 16 / format.bytes;
        for request in requests(&format!("{}_extract_lane", format.shape)).iter().filter(|request| valid(request)) {
            let answer = table::answer(request);
            assert_eq!(u64::from_le_bytes(answer[8..16].try_into().unwrap()), format.lane(&request.a, request.lane.into()));
        }
        for request in requests(&format!("{}_replace_lane", format.shape)).iter().filter(|request| valid(request)) {
            let answer = table::answer(request);
            assert_eq!(format.lane(&answer[16..32], request.lane.into()), request.scalar & format.ones());
        }
    }
}
