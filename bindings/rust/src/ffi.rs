//! The functions of the two archives, as punelovash.h has them. A slice is a pointer that isn't null, and a length.

use core::ffi::c_void;
use core::mem::size_of;

/// Declares the functions once, and has each board's call those with its prefix.
macro_rules! library {
    ($(fn $name:ident($($parameter:ident: $type:ty),* $(,)?) -> $result:ty;)*) => {
        /// The functions of a board, as punelovash.h has them: each pointer and length is of a slice that lives through the
        /// call, and is borrowed mutably where the pointer is `mut`.
        #[allow(missing_docs, clippy::missing_safety_doc, clippy::too_many_arguments)]
        pub trait Library {
            $(unsafe fn $name($($parameter: $type),*) -> $result;)*
        }

        library!(@board u32, "punelovash_": $(fn $name($($parameter: $type),*) -> $result;)*);
        library!(@board u64, "punelovash8_": $(fn $name($($parameter: $type),*) -> $result;)*);
    };
    (@board $word:ty, $prefix:literal: $(fn $name:ident($($parameter:ident: $type:ty),*) -> $result:ty;)*) => {
        impl Library for $word {
            $(
                #[inline(always)]
                unsafe fn $name($($parameter: $type),*) -> $result {
                    extern "C" {
                        #[link_name = concat!($prefix, stringify!($name))]
                        fn $name($($parameter: $type),*) -> $result;
                    }
                    $name($($parameter),*)
                }
            )*
        }
    };
}

// IDs have 64 bits here. The 4-byte board's are C's size_t, which is as wide where its archive runs.
const _: () = assert!(size_of::<usize>() == size_of::<u64>());

library! {
    fn restart(
        block: *mut u8,
        block_length: usize,
        page_size: u32,
        page_count: u32,
        first_page: u32,
        circular: u8,
        read_client: u8,
        append_client: u8,
        volume: *const u8,
        volume_length: usize,
        page: *mut u8,
        page_length: usize,
        hold: *const u8,
        hold_length: usize,
    ) -> u32;

    fn append(
        block: *mut u8,
        block_length: usize,
        volume: *const u8,
        volume_length: usize,
        page: *mut u8,
        page_length: usize,
        hold: *mut u8,
        hold_length: usize,
        data: *const u8,
        data_length: usize,
        length: usize,
        word: u8,
    ) -> u32;

    fn read(
        block: *mut u8,
        block_length: usize,
        volume: *const u8,
        volume_length: usize,
        page: *const u8,
        page_length: usize,
        buffer: *mut u8,
        buffer_length: usize,
        length: usize,
    ) -> u32;

    fn seek(block: *mut u8, block_length: usize, entry_id: u64) -> u32;

    fn sync(
        block: *mut u8,
        block_length: usize,
        volume: *const u8,
        volume_length: usize,
        page: *mut u8,
        page_length: usize,
        hold: *const u8,
        hold_length: usize,
        word: u8,
    ) -> u32;

    fn erase(block: *mut u8, block_length: usize, word: u8) -> u32;

    fn write_complete(
        block: *mut u8,
        block_length: usize,
        volume: *const u8,
        volume_length: usize,
        page: *mut u8,
        page_length: usize,
        hold: *const u8,
        hold_length: usize,
        good: u8,
    ) -> u32;

    fn erase_complete(
        block: *mut u8,
        block_length: usize,
        volume: *const u8,
        volume_length: usize,
        page: *mut u8,
        page_length: usize,
        hold: *const u8,
        hold_length: usize,
        good: u8,
        word: u8,
    ) -> u32;

    fn deferred_call(block: *mut u8, block_length: usize) -> u32;

    // `ids` are words of the board
    fn survey(
        page_size: u32,
        page_count: u32,
        first_page: u32,
        volume: *const u8,
        volume_length: usize,
        ids: *mut c_void,
        ids_length: usize,
        count: *mut usize,
    ) -> u32;

    fn nearest(
        block: *const u8,
        block_length: usize,
        volume: *const u8,
        volume_length: usize,
        page: *const u8,
        page_length: usize,
        stamp: u32,
        entry_id: *mut u64,
    ) -> u32;

    // `ids` has 64 bits on both boards
    fn between(
        block: *const u8,
        block_length: usize,
        volume: *const u8,
        volume_length: usize,
        page: *const u8,
        page_length: usize,
        first: u32,
        last: u32,
        ids: *mut u64,
        ids_length: usize,
        value: *mut u64,
    ) -> u32;

    fn next_entry(
        block: *const u8,
        block_length: usize,
        volume: *const u8,
        volume_length: usize,
        page: *const u8,
        page_length: usize,
        at: u64,
        entry_id: *mut u64,
        length: *mut usize,
        end: *mut u64,
    ) -> u32;

    fn log_start(block: *const u8, block_length: usize) -> u64;
    fn log_end(block: *const u8, block_length: usize) -> u64;
    fn next_read_entry_id(block: *const u8, block_length: usize) -> u64;
    fn get_size(block: *const u8, block_length: usize) -> usize;
}
