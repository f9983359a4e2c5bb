//! Slips of a port that looks an address up in the windows.

use crate::encode::{row_13, row_14};
use crate::function::{with, Fault};
use crate::inputs::Outcome;
use crate::layout::{
    all_windows, BLOCK, DEVICE_LEN, EXEMPT, IMAGE_PRESENT, INPUT_LIMIT, PAGE, SUP_FRAMES,
};
use crate::port::UNWRITTEN;
use crate::reach::granted;
use crate::walk::NOTHING;
use crate::windows::Windowed;

pub const FAULTS: &[Fault<Windowed>] = &[
    fault(
        "windows-grant-nothing",
        "every address reaches nothing",
        |_, answer| {
            if answer[0] == 0 {
                *answer = NOTHING;
            }
        },
    ),
    fault(
        "windows-grant-past-the-limit",
        "an address past 2^39 is cut to 39 bits",
        |x, answer| *answer = with(x, |x| x.ipa %= INPUT_LIMIT),
    ),
    fault(
        "windows-grant-offset-dropped",
        "a page is reached at its start",
        |_, answer| {
            if answer[0] == 0 {
                answer[2] -= answer[2] % PAGE;
            }
        },
    ),
    fault(
        "windows-grant-input",
        "every window maps an address to itself",
        |x, answer| {
            if answer[..2] == [0, 1] {
                answer[2] = x.ipa;
            }
        },
    ),
    fault(
        "windows-grant-rw-as-ro",
        "what can be written is told as Ro",
        |_, answer| {
            if answer[0] == 0 {
                answer[3] = answer[3].min(1);
            }
        },
    ),
    fault(
        "windows-grant-exempt-all",
        "every layout is exempt",
        |x, answer| *answer = with(x, |x| x.scene_mut().fields[EXEMPT] = 1),
    ),
    fault(
        "windows-grant-exempt-none",
        "no layout is exempt",
        |x, answer| *answer = with(x, |x| x.scene_mut().fields[EXEMPT] = 0),
    ),
    fault(
        "windows-grant-exempt-data",
        "the exemption is the pages' too",
        |x, answer| {
            let data = all_windows(&x.scene.fields)[1];
            let inside = x.ipa.wrapping_sub(data.ipa) < data.span as u64;
            if inside && x.scene.fields[EXEMPT] != 0 && answer[..4] == [0, 1, answer[2], 2] {
                answer[4] = 0;
            }
        },
    ),
    fault(
        "windows-grant-no-image",
        "an image grants nothing",
        |x, answer| *answer = with(x, |x| x.scene_mut().fields[IMAGE_PRESENT] = 0),
    ),
    fault(
        "windows-grant-image-by-1",
        "an image whose presence is another number than 1 is taken for absent",
        |x, answer| {
            if x.scene.fields[IMAGE_PRESENT] > 1 {
                *answer = with(x, |x| x.scene_mut().fields[IMAGE_PRESENT] = 0);
            }
        },
    ),
    fault(
        "windows-grant-no-device",
        "a device grants nothing",
        |x, answer| *answer = with(x, |x| x.scene_mut().fields[DEVICE_LEN] = 0),
    ),
    fault(
        "windows-grant-device-end",
        "the block after a device is granted too",
        |x, answer| {
            let device = all_windows(&x.scene.fields)[3];
            let away = x.ipa.wrapping_sub(device.ipa);
            let after = device.span as u64..device.span as u64 + BLOCK;
            if device.present && *answer == NOTHING && after.contains(&away) {
                answer[1..5].copy_from_slice(&[1, x.ipa, 2, 1]);
            }
        },
    ),
    fault(
        "windows-grant-next-entry",
        "a page or a super is granted by the next entry",
        |x, answer| {
            if *answer != NOTHING && answer[0] == 0 {
                *answer = with(x, |x| {
                    let scene = x.scene_mut();
                    for map in [&mut scene.base, &mut scene.sup] {
                        map.push(0);
                        map.remove(0);
                    }
                });
            }
        },
    ),
    fault(
        "windows-row-13-left-out",
        "equal tables are not refused",
        |x, answer| {
            if answer[0] == 13 {
                *answer = row_14(&x.scene).unwrap_or_else(|| granted(&x.scene, x.ipa));
            }
        },
    ),
    fault(
        "windows-row-14-left-out",
        "a super past the frames is not refused",
        |x, answer| {
            if answer[0] == 14 {
                *answer = granted(&x.scene, x.ipa);
            }
        },
    ),
    fault(
        "windows-row-14-at-the-frames",
        "the super at sup_frames is not refused",
        |x, answer| {
            if answer[..2] == [14, x.scene.fields[SUP_FRAMES]] {
                *answer = granted(&x.scene, x.ipa);
            }
        },
    ),
    fault(
        "windows-row-14-before-13",
        "row 14 comes before row 13",
        |x, answer| {
            if row_13(&x.scene.fields).as_ref() == Some(answer) {
                *answer = row_14(&x.scene).unwrap_or(*answer);
            }
        },
    ),
    fault(
        "windows-values-unwritten",
        "the values of an address that is granted nothing are not written",
        |_, answer| {
            if *answer == NOTHING {
                answer[1..].fill(UNWRITTEN);
            }
        },
    ),
];

const fn fault(
    name: &'static str,
    slip: &'static str,
    alter: fn(&Windowed, &mut Outcome),
) -> Fault<Windowed> {
    Fault {
        name,
        slip,
        op: (),
        alter,
    }
}
