//! A table in the output of a window: the library takes such a layout, and this crate makes no
//! tables of it.

mod changed;
mod made;
#[path = "../examples/scene_s/scene.rs"]
mod scene;

use changed::{changed, Change};
use dervhalt_s2::{Error, Exposed, Refusal, Table, Window};
use made::made;
use scene::{EDGES, LAYOUT};

const L1_PA: u64 = LAYOUT.l1_pa;

/// Each window in turn. The image is mapped for reading alone.
const WINDOWS: [(Change, Window, &str); 4] = [
    (|l| l.guest_image_pa = Some(L1_PA), Window::Image, "read"),
    (|l| l.data_pa_base = L1_PA, Window::Data, "write"),
    (|l| l.sup_pa_base = L1_PA, Window::Super, "write"),
    (|l| l.device_base = L1_PA, Window::Device, "write"),
];

/// In S's data output.
const DATA_PA: u64 = LAYOUT.data_pa_base + 0x1000;

const TABLES: [(Change, Table); 6] = [
    (|l| l.l1_pa = DATA_PA, Table::L1),
    (|l| l.l2_code_pa = DATA_PA, Table::L2Code),
    (|l| l.l2_data_pa = DATA_PA, Table::L2Data),
    (|l| l.l3_data_pa = DATA_PA, Table::L3Data),
    (|l| l.l2_sup_pa = DATA_PA, Table::L2Sup),
    (|l| l.l2_dev_pa = DATA_PA, Table::L2Dev),
];

#[test]
fn a_table_in_reach_is_refused() {
    for (change, window, deed) in WINDOWS {
        let layout = changed(&LAYOUT, change);
        let (table, pa) = (Table::L1, L1_PA);
        assert_eq!(layout.validate(), Ok(()));
        assert_eq!(layout.exposed_table(), Ok(Some(Exposed { table, window })));
        let error = Error::InReach { table, pa, window };
        assert_eq!(made(&layout, &EDGES), Err(error));
        let sentence = format!(
            "table l1 at 0x40000000 lies in the output of the {window} window: \
             the guest could {deed} its own tables"
        );
        assert_eq!(error.to_string(), sentence);
    }
    assert_eq!(LAYOUT.exposed_table(), Ok(None));
    let checked = LAYOUT.checked().unwrap();
    assert_eq!(
        (*checked.layout(), checked.tables()),
        (LAYOUT, LAYOUT.tables())
    );
    assert_eq!(made(&LAYOUT, &EDGES), Ok(()));
}

#[test]
fn the_table_in_reach_is_told() {
    for (change, table) in TABLES {
        let (pa, window) = (DATA_PA, Window::Data);
        let error = Error::InReach { table, pa, window };
        assert_eq!(made(&changed(&LAYOUT, change), &EDGES), Err(error));
    }
}

/// The rows of a layout come before it, and 13 and 14 after.
#[test]
fn its_place_among_the_rows() {
    let (table, pa, window) = (Table::L1, L1_PA, Window::Data);
    let in_reach = Error::InReach { table, pa, window };
    let crosses = Refusal::RegionCrossesL1 {
        l1_index: 3,
        span: 513 << 21,
    };
    let handed_out = changed(&LAYOUT, |l| l.data_pa_base = L1_PA);
    let answers: [(Change, Error); 3] = [
        (|l| l.sup_frames = 513, crosses.into()),
        (|l| l.l2_dev_pa = L1_PA, in_reach),
        (|l| l.sup_frames = 0, in_reach),
    ];
    for (change, error) in answers {
        assert_eq!(made(&changed(&handed_out, change), &EDGES), Err(error));
    }
}
