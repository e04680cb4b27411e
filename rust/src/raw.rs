//! The calls of `include/pool.h` and `include/bank.h`, with slices for pointers and lengths. All that is unsafe stands here.

mod c {
    extern "C" {
        pub fn pool_lay_out(pool: *mut u8, n: usize, layout: u32) -> u64;
        pub fn pool_inspect(pool: *const u8, n: usize) -> u64;
        pub fn pool_take(pool: *mut u8, n: usize, size: u32) -> u64;
        pub fn pool_give_back(pool: *mut u8, n: usize, offset: u32) -> u64;
        pub fn pool_ask(pool: *const u8, n: usize, offset: u32) -> u64;
        pub fn pool_convert(pool: *mut u8, n: usize, old: u32) -> u64;
        pub fn pool_bring_in(pool: *mut u8, n: usize) -> u64;
        pub fn pool_figures(pool: *const u8, n: usize, figures: *mut u32, count: usize) -> u64;
        pub fn pool_class_count(pool: *const u8, n: usize, counts: *mut u32, count: usize) -> u64;
        pub fn bank_set(
            pool: *mut u8,
            n: usize,
            bank: *mut u32,
            piston: u32,
            kind: u8,
            body: *const u8,
            length: usize,
        ) -> u64;
        pub fn bank_clear(pool: *mut u8, n: usize, bank: *mut u32, piston: u32) -> u64;
        pub fn bank_recall(pool: *const u8, n: usize, bank: *const u32, piston: u32) -> u64;
    }
}

// One reason for all of them. The headers ask for n readable (or writable) bytes that nobody else writes (or uses) during the call, and
// that share no byte with what else the call is lent: a `&[u8]` (a `&mut [u8]`) is that, and what a `&mut` lends is apart from all else. Of
// what is only read, nothing is asked but that it stays. An empty slice may dangle. The calls keep no pointer, and answer for every n,
// number and bytes.

pub fn lay_out(pool: &mut [u8], layout: u32) -> u64 {
    // SAFETY: pointer and length are those of one exclusive slice.
    unsafe { c::pool_lay_out(pool.as_mut_ptr(), pool.len(), layout) }
}

pub fn inspect(pool: &[u8]) -> u64 {
    // SAFETY: pointer and length are those of one shared slice, which the call only reads.
    unsafe { c::pool_inspect(pool.as_ptr(), pool.len()) }
}

pub fn take(pool: &mut [u8], size: u32) -> u64 {
    // SAFETY: pointer and length are those of one exclusive slice.
    unsafe { c::pool_take(pool.as_mut_ptr(), pool.len(), size) }
}

pub fn give_back(pool: &mut [u8], offset: u32) -> u64 {
    // SAFETY: pointer and length are those of one exclusive slice.
    unsafe { c::pool_give_back(pool.as_mut_ptr(), pool.len(), offset) }
}

pub fn ask(pool: &[u8], offset: u32) -> u64 {
    // SAFETY: pointer and length are those of one shared slice, which the call only reads.
    unsafe { c::pool_ask(pool.as_ptr(), pool.len(), offset) }
}

pub fn convert(pool: &mut [u8], old: u32) -> u64 {
    // SAFETY: pointer and length are those of one exclusive slice.
    unsafe { c::pool_convert(pool.as_mut_ptr(), pool.len(), old) }
}

pub fn bring_in(pool: &mut [u8]) -> u64 {
    // SAFETY: pointer and length are those of one exclusive slice.
    unsafe { c::pool_bring_in(pool.as_mut_ptr(), pool.len()) }
}

pub fn figures(pool: &[u8], figures: &mut [u32]) -> u64 {
    // SAFETY: each pointer and length are those of one slice; the pool is only read, and the list is exclusive, so they are apart.
    unsafe { c::pool_figures(pool.as_ptr(), pool.len(), figures.as_mut_ptr(), figures.len()) }
}

pub fn class_count(pool: &[u8], counts: &mut [u32]) -> u64 {
    // SAFETY: each pointer and length are those of one slice; the pool is only read, and the list is exclusive, so they are apart.
    unsafe { c::pool_class_count(pool.as_ptr(), pool.len(), counts.as_mut_ptr(), counts.len()) }
}

pub fn bank_set(pool: &mut [u8], bank: &mut [u32; 32], piston: u32, kind: u8, body: &[u8]) -> u64 {
    let (start, length) = (body.as_ptr(), body.len());
    // SAFETY: each pointer and length are those of one slice, the bank is 32 numbers; pool and bank are exclusive, so all three are apart.
    unsafe {
        c::bank_set(pool.as_mut_ptr(), pool.len(), bank.as_mut_ptr(), piston, kind, start, length)
    }
}

pub fn bank_clear(pool: &mut [u8], bank: &mut [u32; 32], piston: u32) -> u64 {
    // SAFETY: pointer and length are those of one exclusive slice, and the bank is 32 exclusive numbers, so they are apart.
    unsafe { c::bank_clear(pool.as_mut_ptr(), pool.len(), bank.as_mut_ptr(), piston) }
}

pub fn bank_recall(pool: &[u8], bank: &[u32; 32], piston: u32) -> u64 {
    // SAFETY: pointer and length are those of one shared slice, and the bank is 32 shared numbers; the call only reads both.
    unsafe { c::bank_recall(pool.as_ptr(), pool.len(), bank.as_ptr(), piston) }
}
