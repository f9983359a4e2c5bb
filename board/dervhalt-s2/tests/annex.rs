//! The annex page: its runs, also across windows, and its place in the buffer.

mod changed;
#[path = "../examples/scene_s/scene.rs"]
mod scene;

use changed::{changed, Change};
use dervhalt_s2::{
    annex_page, leaf_map_from_edges, Edge, Layout, Mfn, Perm, Refusal, Span, ANNEX_MAX, MAP_LEN,
};
use scene::{DOM, EDGES, FRAMES, LAYOUT};

const END: &str = "=======================================";

const PAGE_OF_S: [&str; 3] = [
    "0009000000 00091FFFFF 000009000000 RW -",
    "0080001000 0080001FFF 000050001000 RW -",
    "00C0400000 00C05FFFFF 000060400000 RO X",
];

const NO_DEVICE: Change = |l| l.device_len = 0;

/// Data's last page is followed by super 0, in address and in output.
const TOUCHING: Change = |l| {
    l.data_ipa_base = l.sup_ipa_base - 0x20_0000;
    l.data_pa_base = l.sup_pa_base - 0x20_0000;
    l.device_len = 0;
};

/// A leaf under one of S's two tables.
fn leaf(span: Span, child: Mfn, perm: Perm) -> Edge {
    let edge = match span {
        Span::Base => EDGES[0],
        Span::Super => EDGES[1],
    };
    let (writable, execute) = (perm == Perm::Rw, perm == Perm::Rx);
    Edge {
        child,
        writable,
        execute,
        ..edge
    }
}

fn base(child: Mfn, perm: Perm) -> Edge {
    leaf(Span::Base, child, perm)
}

fn sup(child: Mfn, perm: Perm) -> Edge {
    leaf(Span::Super, child, perm)
}

/// Whoever owns the frames.
fn annex<'p>(page: &'p mut [u8], layout: &Layout, edges: &[Edge]) -> Result<&'p str, Refusal> {
    let (mut base, mut sup) = ([0; MAP_LEN], [0; MAP_LEN]);
    let maps = leaf_map_from_edges(edges, &FRAMES, DOM, &mut base, &mut sup)
        .expect("the edges are accepted");
    let layout = layout.checked().expect("the layout is accepted");
    annex_page(page, maps.assume_authorized(), &layout)
}

/// The page of S's layout, changed, has these lines before its last.
fn lists(change: Change, edges: &[Edge], lines: &[&str]) {
    let mut page = [7; ANNEX_MAX];
    let text = annex(&mut page, &changed(&LAYOUT, change), edges).expect("no row refuses");
    let found: Vec<_> = text.split_terminator('\n').collect();
    assert_eq!(found, [lines, &[END]].concat());
    assert!(text.ends_with('\n'));
}

#[test]
fn the_page_of_s() {
    lists(|_| {}, &EDGES, &PAGE_OF_S);
}

#[test]
fn nothing_is_reached() {
    lists(NO_DEVICE, &[], &[]);
    let layout = changed(&LAYOUT, NO_DEVICE);
    assert!(annex(&mut [0; 40], &layout, &[]).is_ok());
    assert_eq!(annex(&mut [0; 39], &layout, &[]), Err(Refusal::PageTooLong));
}

/// S's page has 160 bytes.
#[test]
fn it_is_the_front_of_the_buffer() {
    for len in [160, 161, 200, 4096] {
        let mut page = vec![7; len];
        let text = annex(&mut page, &LAYOUT, &EDGES).unwrap().to_string();
        assert_eq!(text.len(), 160);
        assert_eq!(page[..160], *text.as_bytes());
        assert_eq!(page[160..], vec![7; len - 160]);
    }
    for len in [0, 40, 120, 159] {
        let mut page = vec![7; len];
        let refused = annex(&mut page, &LAYOUT, &EDGES);
        assert_eq!(refused, Err(Refusal::PageTooLong));
        assert_eq!(page, vec![7; len]);
    }
}

#[test]
fn a_run_crosses_from_data_into_super() {
    use Perm::{Ro, Rw, Rx};
    for (perm, access) in [(Rw, "RW -"), (Ro, "RO -"), (Rx, "RO X")] {
        let line = format!("00BFFFF000 00C01FFFFF 00005FFFF000 {access}");
        lists(TOUCHING, &[base(511, perm), sup(0, perm)], &[&line]);
    }
    let longer = [base(510, Rw), base(511, Rw), sup(0, Rw), sup(1, Rw)];
    let line = "00BFFFE000 00C03FFFFF 00005FFFE000 RW -";
    lists(TOUCHING, &longer, &[line]);
}

#[test]
fn a_run_ends_where_access_differs() {
    use Perm::{Ro, Rw, Rx};
    for (before, after, first, second) in [
        (Rw, Ro, "RW -", "RO -"),
        (Ro, Rx, "RO -", "RO X"),
        (Rx, Rw, "RO X", "RW -"),
    ] {
        let lines = [
            format!("00BFFFF000 00BFFFFFFF 00005FFFF000 {first}"),
            format!("00C0000000 00C01FFFFF 000060000000 {second}"),
        ];
        let edges = [base(511, before), sup(0, after)];
        lists(TOUCHING, &edges, &lines.each_ref().map(String::as_str));
    }
}

/// An exempt layout's writable super is executable too.
#[test]
fn a_run_ends_where_execution_differs() {
    let exempt: Change = |l| {
        TOUCHING(l);
        l.sup_wx_exempt = true;
    };
    lists(
        exempt,
        &[base(511, Perm::Rw), sup(0, Perm::Rw)],
        &[
            "00BFFFF000 00BFFFFFFF 00005FFFF000 RW -",
            "00C0000000 00C01FFFFF 000060000000 RW X",
        ],
    );
}

#[test]
fn a_run_ends_where_output_does_not_continue() {
    let moved: Change = |l| {
        TOUCHING(l);
        l.sup_pa_base += 0x20_0000;
    };
    lists(
        moved,
        &[base(511, Perm::Rw), sup(0, Perm::Rw)],
        &[
            "00BFFFF000 00BFFFFFFF 00005FFFF000 RW -",
            "00C0000000 00C01FFFFF 000060200000 RW -",
        ],
    );
}

#[test]
fn a_run_ends_where_an_address_is_not_reached() {
    lists(
        TOUCHING,
        &[base(509, Perm::Rw), base(511, Perm::Rw), sup(1, Perm::Rw)],
        &[
            "00BFFFD000 00BFFFDFFF 00005FFFD000 RW -",
            "00BFFFF000 00BFFFFFFF 00005FFFF000 RW -",
            "00C0200000 00C03FFFFF 000060200000 RW -",
        ],
    );
}

#[test]
fn runs_of_windows_that_map_addresses_to_themselves() {
    let device_before_data: Change = |l| {
        l.device_base = 0x7FE0_0000;
        l.data_pa_base = l.data_ipa_base;
    };
    let line = "007FE00000 0080000FFF 00007FE00000 RW -";
    lists(device_before_data, &[base(0, Perm::Rw)], &[line]);
    let image_before_super: Change = |l| {
        l.guest_image_pa = Some(0x1_3FE0_0000);
        l.sup_ipa_base = 0x1_4000_0000;
        l.sup_pa_base = 0x1_4000_0000;
        l.device_len = 0;
    };
    let line = "013FE00000 01401FFFFF 00013FE00000 RO X";
    lists(image_before_super, &[sup(0, Perm::Rx)], &[line]);
}

/// Super, device, image and data, from the lowest address to the last below 2^39.
#[test]
fn lines_stand_in_address_order() {
    let other_order: Change = |l| {
        l.sup_ipa_base = 0;
        l.device_base = 0xC900_0000;
        l.guest_image_pa = Some(0x1_4000_0000);
        l.data_ipa_base = (1 << 39) - 0x20_0000;
        l.data_pa_base = (1 << 40) - 0x20_0000;
    };
    lists(
        other_order,
        &[base(511, Perm::Rw), sup(0, Perm::Ro), sup(3, Perm::Rx)],
        &[
            "0000000000 00001FFFFF 000060000000 RO -",
            "0000600000 00007FFFFF 000060600000 RO X",
            "00C9000000 00C91FFFFF 0000C9000000 RW -",
            "0140000000 01401FFFFF 000140000000 RO X",
            "7FFFFFF000 7FFFFFFFFF 00FFFFFFF000 RW -",
        ],
    );
}
