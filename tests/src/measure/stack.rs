//! The stack that a call takes, by paint: the call is made on a stack of its own
//! that was painted before, and what is no longer painted was used.

use std::arch::asm;

/// Octets of stack that a measured call may take.
pub const WINDOW: usize = 64 * 1024;
/// Octets below them, painted as well: a call that takes of them can be told, and
/// has harmed nothing.
const BELOW: usize = 64 * 1024;

const WORD: usize = size_of::<u64>();
const WORDS: usize = (WINDOW + BELOW) / WORD;

/// At a call a stack stands at a multiple of 16 octets.
#[repr(align(16))]
struct Memory([u64; WORDS]);

pub struct PaintedStack {
    memory: Box<Memory>,
}

/// No two words have the same paint, so that a stored number is hardly ever taken
/// for it.
fn paint(place: usize) -> u64 {
    (place as u64 + 1).wrapping_mul(0x9E37_79B9_7F4A_7C15)
}

impl PaintedStack {
    pub fn new() -> Self {
        let mut memory = Box::new(Memory([0; WORDS]));
        paint_over(&mut memory.0, 0);
        PaintedStack { memory }
    }

    /// Makes a call and gives the octets from the return address of `made`, its
    /// caller, down to the last word that was written. What is reserved below that
    /// and never written does not count.
    pub fn depth(&mut self, mut call: impl FnMut()) -> usize {
        call_on(&mut self.memory, &mut call);
        let words = &mut self.memory.0;
        let untouched = (0..WORDS).take_while(|&place| words[place] == paint(place));
        let untouched = untouched.count();
        paint_over(words, untouched);
        (WORDS - untouched) * WORD
    }
}

impl Default for PaintedStack {
    fn default() -> Self {
        PaintedStack::new()
    }
}

fn paint_over(words: &mut [u64; WORDS], from: usize) {
    for (place, word) in words.iter_mut().enumerate().skip(from) {
        *word = paint(place);
    }
}

/// Makes a call with the memory as its stack.
fn call_on<F: FnMut()>(memory: &mut Memory, call: &mut F) {
    let top = memory.0.as_mut_ptr_range().end;
    // SAFETY: the stack below `top` is memory that is lent to this function alone,
    // and `top` is aligned as the ABI asks at a call. It has the size of a deep
    // stack; a call that needs more must not be measured. The old stack's place is
    // kept in r12, which a function of this ABI gives back as it was; the other
    // registers that it may change are named to the compiler. `made` gets the
    // pointer that it asks for, and no panic leaves it: a function of this ABI ends
    // the process instead.
    unsafe {
        asm!(
            "xchg rsp, r12",
            "call {made}",
            "mov rsp, r12",
            made = sym made::<F>,
            inout("r12") top => _,
            inout("rdi") std::ptr::from_mut(call) => _,
            clobber_abi("sysv64"),
        );
    }
}

/// The measured call's caller: the first function on the painted stack.
///
/// # Safety
///
/// The pointer is a borrow of a call that nothing else uses meanwhile.
unsafe extern "sysv64" fn made<F: FnMut()>(call: *mut F) {
    unsafe { (*call)() }
}

#[cfg(test)]
mod tests {
    use super::*;
    use std::hint::black_box;

    /// What a call may take beside its own array.
    const BESIDE: usize = 600;

    /// Takes a little more than `N` octets of stack, and writes all of them.
    #[inline(never)]
    fn with_array<const N: usize>() {
        let mut array = [0_u8; N];
        array.fill(black_box(7));
        black_box(&array);
    }

    #[test]
    fn a_large_array_is_seen_and_little_else() {
        let mut stack = PaintedStack::new();
        let small = stack.depth(with_array::<100>);
        assert!((100..100 + BESIDE).contains(&small), "{small}");
        let large = stack.depth(with_array::<10_000>);
        assert!((10_000..10_000 + BESIDE).contains(&large), "{large}");
        assert_eq!(stack.depth(with_array::<100>), small);
    }

    #[test]
    fn a_call_that_does_nothing_takes_little() {
        let depth = PaintedStack::new().depth(|| {});
        assert!((WORD..BESIDE).contains(&depth), "{depth}");
    }

    #[test]
    fn more_than_the_window_is_told() {
        let depth = PaintedStack::new().depth(with_array::<{ WINDOW + 1 }>);
        assert!(depth > WINDOW && depth < WINDOW + BESIDE, "{depth}");
    }

    #[test]
    fn calls_below_calls_add_up_and_what_they_do_is_kept() {
        fn nested(levels: usize) -> usize {
            let array = black_box([levels; 50]);
            match levels {
                0 => 0,
                _ => 1 + nested(levels - 1) + black_box(&array).len() - 50,
            }
        }
        let mut stack = PaintedStack::new();
        let mut counts = Vec::new();
        let depths = [1, 11].map(|levels| stack.depth(|| counts.push(nested(levels))));
        assert_eq!(counts, [1, 11]);
        let added = depths[1] - depths[0];
        assert!((10 * 50 * WORD..10 * (2 * 50 * WORD + BESIDE)).contains(&added));
    }
}
