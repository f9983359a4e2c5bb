//! Names are printed as document 01 and the Rust spell them, and have document 01's codes.

use std::fmt::Display;

use dervhalt_s2::{Access, Check, Perm, Span, Table, Window};

/// The cases of a name in the order of their codes, with how each is printed.
fn printed<T: Display>(cases: &[T], names: &str) {
    let found: Vec<_> = cases.iter().map(T::to_string).collect();
    assert_eq!(found.join(", "), names);
}

#[test]
fn names() {
    use Table::{L2Code, L2Data, L2Dev, L2Sup, L3Data, L1};
    let tables = [L1, L2Code, L2Data, L3Data, L2Sup, L2Dev];
    printed(&tables, "l1, l2_code, l2_data, l3_data, l2_sup, l2_dev");
    assert_eq!(tables.map(|table| table as u64), [1, 2, 3, 4, 5, 6]);

    let windows = [Window::Image, Window::Data, Window::Super, Window::Device];
    printed(&windows, "image, data, super, device");
    assert_eq!(windows.map(|window| window as u64), [1, 2, 3, 4]);

    use Check::{DataIpa, DataPa, Device, Image, SuperIpa, SuperPa};
    let checks = [DataIpa, DataPa, SuperIpa, SuperPa, Image, Device];
    printed(
        &checks,
        "data ipa, data pa, super ipa, super pa, image, device",
    );
    assert_eq!(checks.map(|check| check as u64), [1, 2, 3, 4, 5, 6]);

    printed(&[Span::Base, Span::Super], "base, super");
    assert_eq!([Span::Base as u64, Span::Super as u64], [1, 2]);

    printed(&[Perm::Ro, Perm::Rw, Perm::Rx], "Ro, Rw, Rx");
    let entries = [0, 1, 2, 3].map(Perm::of_entry);
    let (ro, rw, rx) = (Some(Perm::Ro), Some(Perm::Rw), Some(Perm::Rx));
    assert_eq!(entries, [None, ro, rw, rx]);

    printed(&[Access::Ro, Access::Rw], "Ro, Rw");
    assert_eq!([Access::Ro as u64, Access::Rw as u64], [1, 2]);
}
