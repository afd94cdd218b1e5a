// CRC-32 in Rust without the standard library: the program of examples/c/crc32.c, with the same output.
//
//     rustc --target wasm32-unknown-unknown --crate-type cdylib -O -C panic=abort -C linker=wasm-ld \
//       -C link-arg=--emit-relocs -C link-arg=-zstack-size=512 examples/rust/crc32.rs -o crc32.wasm
//     talft-cc crc32.wasm -o crc32.obj
#![no_std]

use core::{arch::wasm32, panic::PanicInfo, ptr};

#[no_mangle]
pub static mut crc: u64 = 0;

fn checksum(bytes: &[u8]) -> u32 {
    let mut rest = u32::MAX;
    for byte in bytes {
        rest ^= u32::from(*byte);
        for _ in 0..8 {
            rest = rest >> 1 ^ if rest & 1 == 1 { 0xEDB8_8320 } else { 0 };
        }
    }
    !rest
}

#[no_mangle]
pub extern "C" fn run() {
    for length in 1..=9 {
        let word = u64::from(checksum(&b"123456789"[..length]));
        unsafe { ptr::write_volatile(ptr::addr_of_mut!(crc), word) };
    }
}

#[panic_handler]
fn panic(_: &PanicInfo) -> ! {
    wasm32::unreachable()
}
