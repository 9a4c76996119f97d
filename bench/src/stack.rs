//! The stack that a call uses, measured on a painted one (x86-64, as libhost.a is).
#![allow(unsafe_code)]

use std::arch::asm;

/// Bytes of the painted stack.
const SIZE: usize = 4 << 20;

extern "C" fn run<F: FnMut()>(call: &mut F) {
    call();
}

/// Runs the call on a stack of its own that holds nothing but the paint, and gives the bytes from
/// its top down to the lowest one that changed.
fn painted<F: FnMut()>(call: &mut F, paint: u8) -> usize {
    let mut stack = vec![u128::from_ne_bytes([paint; 16]); SIZE / 16];
    let top = stack.as_mut_ptr_range().end;
    // SAFETY: `top` is aligned to 16 bytes and has SIZE bytes below it. The call gets its argument
    // in rdi and keeps r12, in which the old stack pointer waits; what it may change is declared.
    unsafe {
        asm!(
            "xchg rsp, r12",
            "call {run}",
            "mov rsp, r12",
            run = sym run::<F>,
            inout("r12") top => _,
            in("rdi") call,
            clobber_abi("C"),
        );
    }
    let bytes = stack.iter().flat_map(|sixteen| sixteen.to_ne_bytes());
    SIZE - bytes.take_while(|byte| *byte == paint).count()
}

/// The bytes of stack that a call uses, without those of the measuring itself. Two paints, in case
/// the deepest byte that is written happens to be one of them.
pub fn used<F: FnMut()>(mut call: F) -> usize {
    let mut nothing = || {};
    let own = painted(&mut nothing, 0xA5);
    let most = painted(&mut call, 0xA5).max(painted(&mut call, 0x5A));
    most.saturating_sub(own)
}

#[cfg(test)]
mod tests {
    use super::*;
    use std::hint::black_box;

    #[test]
    fn an_array_is_seen() {
        let bytes = used(|| {
            black_box([7_u8; 10_000]);
        });
        assert!((10_000..11_000).contains(&bytes), "{bytes}");
    }
}
