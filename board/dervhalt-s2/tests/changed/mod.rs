//! A layout with a change, for tables of changes a line each.

use dervhalt_s2::Layout;

pub type Change = fn(&mut Layout);

pub fn changed(layout: &Layout, change: Change) -> Layout {
    let mut layout = *layout;
    change(&mut layout);
    layout
}
