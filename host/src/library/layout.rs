//! The places and sizes of the structs that are declared here for the archive. They are compared with
//! `host/layout.txt`, and so are those of the C header (`tools/hold-header`): a field that is
//! exchanged, added or left out in one of the two is noticed.

/// Makes `layout()` of a module: a line for each struct of the header, and one for each field.
macro_rules! layout_of {
    ($($name:literal: $type:ident { $($field:ident),* })*) => {
        pub(super) fn layout() -> String {
            use super::layout::size_of_field;
            use std::mem::{offset_of, size_of};
            let mut lines = String::new();
            $(
                // It does not compile where a field is left out.
                let _ = |all: $type| {
                    let $type { $($field: _),* } = all;
                };
                lines += &format!("{} {}\n", $name, size_of::<$type>());
                $(
                    let (place, size) = (offset_of!($type, $field), size_of_field(|all: &$type| &all.$field));
                    lines += &format!("{}.{} {place} {size}\n", $name, stringify!($field));
                )*
            )*
            lines
        }
    };
}

pub(super) fn size_of_field<S, F>(_: fn(&S) -> &F) -> usize {
    size_of::<F>()
}

use super::{areas, ffi, items, lines, pollings, rounds, stores, summaries};
use std::collections::BTreeSet;
use std::mem::size_of;

#[test]
fn the_declarations_have_the_headers_layout() {
    let own = [
        ffi::layout(),
        areas::layout(),
        items::layout(),
        lines::layout(),
        pollings::layout(),
        rounds::layout(),
        stores::layout(),
        summaries::layout(),
    ]
    .concat();
    let own: BTreeSet<&str> = own.lines().collect();
    let headers: BTreeSet<&str> = include_str!("../../layout.txt").lines().collect();
    let odd: Vec<_> = own.symmetric_difference(&headers).collect();
    assert!(
        odd.is_empty(),
        "here or in the header, not in both: {odd:?}"
    );
}
