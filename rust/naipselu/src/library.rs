//! The exports of the library, as `crates/versions_c/src` has them. An allocator is a parameter of no bytes there, so it is left
//! out here, and a slice is a pointer and a length. Each asks of its caller that the handle is null or was filled by the library,
//! that no other call has it, and that it is the only copy: a `&mut Handle` is that, since nothing but `null` makes one, and nothing
//! here reads or writes its fields.

use std::ptr::null_mut;

/// A store behind a pointer, or null, and whether it is one.
#[repr(C)]
pub struct Handle {
    at: *mut u8,
    held: bool,
}

impl Handle {
    pub fn null() -> Handle {
        Handle { at: null_mut(), held: false }
    }
}

/// A value but for the bytes of a text: the number, or the length of the text.
#[repr(C)]
#[derive(Clone, Copy, Debug, Default)]
pub struct Form {
    pub is_text: bool,
    pub number: u64,
}

// The C of the toolchain's own, by which the library has memory.
#[link(name = "libc_c", kind = "static")]
unsafe extern "C" {}

#[link(name = "versions_c", kind = "static")]
unsafe extern "C" {
    pub safe fn naipselu_new(handle: &mut Handle) -> u32;
    pub safe fn naipselu_free(handle: &mut Handle);

    pub safe fn naipselu_lists_empty(handle: &mut Handle, made: &mut usize) -> u32;
    pub safe fn naipselu_lists_copy(handle: &mut Handle, version: usize, made: &mut usize) -> u32;
    pub fn naipselu_lists_push(
        handle: &mut Handle, version: usize, form: Form, text: *const u8, len: usize, made: &mut usize,
    ) -> u32;
    pub fn naipselu_lists_set(
        handle: &mut Handle, version: usize, index: u32, form: Form, text: *const u8, len: usize, made: &mut usize,
    ) -> u32;
    pub fn naipselu_lists_insert(
        handle: &mut Handle, version: usize, index: u32, form: Form, text: *const u8, len: usize, made: &mut usize,
    ) -> u32;
    pub safe fn naipselu_lists_remove(handle: &mut Handle, version: usize, index: u32, made: &mut usize) -> u32;
    pub safe fn naipselu_lists_pop(handle: &mut Handle, version: usize, made: &mut usize) -> u32;
    pub safe fn naipselu_lists_concat(handle: &mut Handle, left: usize, right: usize, made: &mut usize) -> u32;
    pub safe fn naipselu_lists_slice(handle: &mut Handle, version: usize, from: u32, to: u32, made: &mut usize) -> u32;
    pub fn naipselu_lists_push_here(
        handle: &mut Handle, version: usize, form: Form, text: *const u8, len: usize, edited: &mut usize,
    ) -> u32;
    pub fn naipselu_lists_set_here(
        handle: &mut Handle, version: usize, index: u32, form: Form, text: *const u8, len: usize, edited: &mut usize,
    ) -> u32;
    pub safe fn naipselu_lists_pop_here(handle: &mut Handle, version: usize, edited: &mut usize) -> u32;
    pub safe fn naipselu_lists_forget(handle: &mut Handle, version: usize, forgotten: &mut usize) -> u32;
    pub safe fn naipselu_lists_len(handle: &mut Handle, version: usize, len: &mut usize) -> u32;
    pub fn naipselu_lists_get(
        handle: &mut Handle, version: usize, index: u32, shown_form: &mut Form, room: *mut u8, len: usize,
    ) -> u32;
    pub safe fn naipselu_lists_same(handle: &mut Handle, left: usize, right: usize, same: &mut bool) -> u32;

    pub safe fn naipselu_sets_empty(handle: &mut Handle, made: &mut usize) -> u32;
    pub safe fn naipselu_sets_copy(handle: &mut Handle, version: usize, made: &mut usize) -> u32;
    pub fn naipselu_sets_insert(
        handle: &mut Handle, version: usize, form: Form, text: *const u8, len: usize, made: &mut usize,
    ) -> u32;
    pub fn naipselu_sets_remove(
        handle: &mut Handle, version: usize, form: Form, text: *const u8, len: usize, made: &mut usize,
    ) -> u32;
    pub fn naipselu_sets_insert_here(
        handle: &mut Handle, version: usize, form: Form, text: *const u8, len: usize, edited: &mut usize,
    ) -> u32;
    pub fn naipselu_sets_remove_here(
        handle: &mut Handle, version: usize, form: Form, text: *const u8, len: usize, edited: &mut usize,
    ) -> u32;
    pub safe fn naipselu_sets_union(handle: &mut Handle, first: usize, second: usize, made: &mut usize) -> u32;
    pub safe fn naipselu_sets_both(handle: &mut Handle, first: usize, second: usize, made: &mut usize) -> u32;
    pub safe fn naipselu_sets_less(handle: &mut Handle, first: usize, second: usize, made: &mut usize) -> u32;
    pub safe fn naipselu_sets_forget(handle: &mut Handle, version: usize, forgotten: &mut usize) -> u32;
    pub safe fn naipselu_sets_len(handle: &mut Handle, version: usize, len: &mut usize) -> u32;
    pub fn naipselu_sets_contains(
        handle: &mut Handle, version: usize, form: Form, text: *const u8, len: usize, has: &mut bool,
    ) -> u32;
    pub safe fn naipselu_sets_same(handle: &mut Handle, left: usize, right: usize, same: &mut bool) -> u32;
    pub fn naipselu_sets_keys(
        handle: &mut Handle, version: usize, forms: *mut Form, most: usize, room: *mut u8, len: usize, count: &mut usize,
    ) -> u32;

    pub safe fn naipselu_maps_empty(handle: &mut Handle, made: &mut usize) -> u32;
    pub safe fn naipselu_maps_copy(handle: &mut Handle, version: usize, made: &mut usize) -> u32;
    pub fn naipselu_maps_insert(
        handle: &mut Handle, version: usize, form: Form, text: *const u8, len: usize, value_form: Form, value_text: *const u8,
        value_len: usize, made: &mut usize,
    ) -> u32;
    pub fn naipselu_maps_remove(
        handle: &mut Handle, version: usize, form: Form, text: *const u8, len: usize, made: &mut usize,
    ) -> u32;
    pub safe fn naipselu_maps_union(handle: &mut Handle, first: usize, second: usize, made: &mut usize) -> u32;
    pub safe fn naipselu_maps_both(handle: &mut Handle, first: usize, second: usize, made: &mut usize) -> u32;
    pub safe fn naipselu_maps_less(handle: &mut Handle, first: usize, second: usize, made: &mut usize) -> u32;
    pub fn naipselu_maps_insert_here(
        handle: &mut Handle, version: usize, form: Form, text: *const u8, len: usize, value_form: Form, value_text: *const u8,
        value_len: usize, edited: &mut usize,
    ) -> u32;
    pub fn naipselu_maps_remove_here(
        handle: &mut Handle, version: usize, form: Form, text: *const u8, len: usize, edited: &mut usize,
    ) -> u32;
    pub safe fn naipselu_maps_forget(handle: &mut Handle, version: usize, forgotten: &mut usize) -> u32;
    pub safe fn naipselu_maps_len(handle: &mut Handle, version: usize, len: &mut usize) -> u32;
    pub fn naipselu_maps_get(
        handle: &mut Handle, version: usize, form: Form, text: *const u8, len: usize, shown_form: &mut Form, room: *mut u8,
        room_len: usize,
    ) -> u32;
    pub safe fn naipselu_maps_same(handle: &mut Handle, left: usize, right: usize, same: &mut bool) -> u32;
    pub fn naipselu_maps_entries(
        handle: &mut Handle, version: usize, forms: *mut Form, most: usize, room: *mut u8, len: usize, count: &mut usize,
    ) -> u32;
}
