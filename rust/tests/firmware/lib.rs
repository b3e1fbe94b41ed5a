//! A caller without std. It has a panic handler of its own, and no program may have that beside std's.

#![no_std]

use core::alloc::{GlobalAlloc, Layout};
use core::panic::PanicInfo;
use core::ptr::null_mut;

use cahermisk::{horizontal, Bitmap, Comparison};

struct NoMemory;

// SAFETY: nothing is ever lent.
unsafe impl GlobalAlloc for NoMemory {
    unsafe fn alloc(&self, _: Layout) -> *mut u8 {
        null_mut()
    }

    unsafe fn dealloc(&self, _: *mut u8, _: Layout) {}
}

#[global_allocator]
static MEMORY: NoMemory = NoMemory;

#[panic_handler]
fn panic(_: &PanicInfo) -> ! {
    loop {}
}

/// The entries 0 to 7, of three bits, that are less than 3.
#[no_mangle]
pub extern "C" fn firmware_count() -> usize {
    let mut bitmap = [0; Bitmap::bytes_for(8)];
    let less = Comparison::less(3);
    horizontal::scan(&[0x88, 0xC6, 0xFA], 3, 8, less, &mut bitmap).unwrap_or(0)
}
