//! Each pipeline with Rust's iterators. The script puts an offset in place of each OFFSET: 0, 1 or 2 times
//! 16 bytes that the code lies behind a multiple of 64.
#![no_std]
#![allow(clippy::missing_safety_doc)]

use core::arch::global_asm;
use core::slice::from_raw_parts;

global_asm!(".text", ".p2align 6", ".skip 64 + 16 * OFFSET");

macro_rules! loops {
    ($($name:ident($a:ident, $b:ident, $c:ident) $body:block)*) => { $(
        /// # Safety
        /// `a` and `b` point to `n` items each, and `c` to `m`.
        #[unsafe(no_mangle)]
        #[unsafe(link_section = ".text")]
        pub unsafe extern "C" fn $name(
            a: *const i64, b: *const i64, n: usize, c: *const i64, m: usize,
        ) -> i64 {
            let ($a, $b, $c) =
                unsafe { (from_raw_parts(a, n), from_raw_parts(b, n), from_raw_parts(c, m)) };
            $body
        }
    )* };
}

fn sum(rows: impl Iterator<Item = i64>) -> i64 {
    rows.fold(0, i64::wrapping_add)
}

loops! {
    rust_sum_OFFSET(a, _b, _c) {
        sum(a.iter().copied())
    }
    rust_sum_of_squares_OFFSET(a, _b, _c) {
        sum(a.iter().map(|&x| x.wrapping_mul(x)))
    }
    rust_even_squares_OFFSET(a, _b, _c) {
        sum(a.iter().filter(|&&x| x % 2 == 0).map(|&x| x.wrapping_mul(x)))
    }
    rust_maps_OFFSET(a, _b, _c) {
        sum(a
            .iter()
            .map(|&x| x.wrapping_add(1))
            .map(|x| x.wrapping_mul(2))
            .map(|x| x.wrapping_sub(3))
            .map(|x| x.wrapping_mul(5))
            .map(|x| x.wrapping_add(7))
            .map(|x| x.wrapping_mul(11))
            .map(|x| x.wrapping_sub(13)))
    }
    rust_filters_OFFSET(a, _b, _c) {
        sum(a
            .iter()
            .copied()
            .filter(|&x| x > 1)
            .filter(|&x| x > 2)
            .filter(|&x| x > 3)
            .filter(|&x| x > 4)
            .filter(|&x| x > 5)
            .filter(|&x| x > 6)
            .filter(|&x| x > 7))
    }
    rust_filter_of_scan_OFFSET(a, _b, _c) {
        sum(a
            .iter()
            .scan(0i64, |state, &x| {
                *state = state.wrapping_add(x);
                Some(*state)
            })
            .filter(|&state| state % 3 != 0))
    }
    rust_take_while_OFFSET(a, _b, _c) {
        sum(a.iter().copied().take_while(|&x| x < 1000))
    }
    rust_dot_product_OFFSET(a, b, _c) {
        sum(a.iter().zip(b).map(|(&x, &y)| x.wrapping_mul(y)))
    }
    rust_cart_OFFSET(_a, _b, c) {
        sum(c.iter().flat_map(|&x| c.iter().map(move |&y| x.wrapping_mul(y))))
    }
    rust_flat_map_after_zip_OFFSET(_a, _b, c) {
        sum(c.iter().zip(c).flat_map(|(&x, &y)| {
            c.iter().map(move |&z| x.wrapping_mul(y).wrapping_add(z))
        }))
    }
    rust_zip_after_flat_map_OFFSET(a, _b, c) {
        sum(c
            .iter()
            .flat_map(|&x| c.iter().map(move |&y| x.wrapping_add(y)))
            .zip(a)
            .map(|(x, &y)| x.wrapping_mul(y)))
    }
    rust_flat_map_take_OFFSET(_a, _b, c) {
        sum(c
            .iter()
            .flat_map(|&x| c.iter().map(move |&y| x.wrapping_mul(y)))
            .take(8_000_000))
    }
    rust_zip_of_flat_maps_OFFSET(_a, _b, c) {
        let sums = c.iter().flat_map(|&x| c.iter().map(move |&y| x.wrapping_add(y)));
        let products = c.iter().flat_map(|&x| c.iter().map(move |&y| x.wrapping_mul(y)));
        sum(sums.zip(products).map(|(x, y)| x.wrapping_mul(y)))
    }
}
