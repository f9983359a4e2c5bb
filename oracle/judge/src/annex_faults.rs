//! Slips of a port in what a page is written from, in what is told of it, and in what it leaves in
//! the buffer.

use crate::annex::{Annexed, Written};
use crate::annex_page::{page, runs_where, text, Run, LINE, LONGEST};
use crate::encode::Scene;
use crate::function::{with, Fault};
use crate::layout::{BLOCK, DEVICE, DEVICE_LEN, EXEMPT, IMAGE_PRESENT};
use crate::port::UNWRITTEN;

pub const FAULTS: &[Fault<Annexed>] = &[
    fault("annex-no-image", "no image is told", |x, reply| {
        *reply = with(x, |x| x.scene.fields[IMAGE_PRESENT] = 0)
    }),
    fault(
        "annex-image-by-1",
        "an image whose presence is another number than 1 is taken for absent",
        |x, reply| {
            if x.scene.fields[IMAGE_PRESENT] > 1 {
                *reply = with(x, |x| x.scene.fields[IMAGE_PRESENT] = 0);
            }
        },
    ),
    fault("annex-no-device", "no device is told", |x, reply| {
        *reply = with(x, |x| x.scene.fields[DEVICE_LEN] = 0)
    }),
    fault(
        "annex-one-device-block",
        "one block of the device is told",
        |x, reply| {
            if reply.settled() && x.scene.fields[DEVICE_LEN] > 0 {
                *reply = with(x, |x| x.scene.fields[DEVICE_LEN] = BLOCK);
            }
        },
    ),
    fault(
        "annex-device-of-length-0",
        "a device of length 0 is told as a block",
        |x, reply| {
            let device = x.scene.fields[DEVICE];
            if x.scene.fields[DEVICE_LEN] == 0 && device.is_multiple_of(BLOCK) && reply.settled() {
                *reply = with(x, |x| x.scene.fields[DEVICE_LEN] = BLOCK);
            }
        },
    ),
    fault("annex-exempt-all", "every layout is exempt", |x, reply| {
        *reply = with(x, |x| x.scene.fields[EXEMPT] = 1)
    }),
    fault("annex-exempt-none", "no layout is exempt", |x, reply| {
        *reply = with(x, |x| x.scene.fields[EXEMPT] = 0)
    }),
    fault(
        "annex-exempt-by-1",
        "an exemption that is another number than 1 is taken for none",
        |x, reply| {
            if x.scene.fields[EXEMPT] > 1 {
                *reply = with(x, |x| x.scene.fields[EXEMPT] = 0);
            }
        },
    ),
    fault(
        "annex-next-entry",
        "a page or a super is told by the next entry",
        |x, reply| {
            if reply.settled() {
                *reply = with(x, |x| {
                    for map in [&mut x.scene.base, &mut x.scene.sup] {
                        map.push(0);
                        map.remove(0);
                    }
                });
            }
        },
    ),
    fault(
        "annex-last-page-unread",
        "page 511 is not told",
        |x, reply| *reply = with(x, |x| unread(&mut x.scene.base, 511)),
    ),
    fault(
        "annex-last-super-unread",
        "super 511 is not told",
        |x, reply| *reply = with(x, |x| unread(&mut x.scene.sup, 511)),
    ),
    fault(
        "annex-first-page-unread",
        "page 0 is not told",
        |x, reply| *reply = with(x, |x| unread(&mut x.scene.base, 0)),
    ),
    fault(
        "annex-first-super-unread",
        "super 0 is not told",
        |x, reply| *reply = with(x, |x| unread(&mut x.scene.sup, 0)),
    ),
    fault(
        "annex-nothing-written",
        "the page is not written",
        |x, reply| reply.buffer.clone_from(&x.buffer),
    ),
    fault(
        "annex-at-the-end",
        "the page is the last part of the buffer",
        |x, reply| {
            if let Some(len) = reply.written() {
                let page = reply.buffer[..len].to_vec();
                reply.buffer.clone_from(&x.buffer);
                let start = x.buffer.len() - len;
                reply.buffer[start..].copy_from_slice(&page);
            }
        },
    ),
    fault(
        "annex-zero-after",
        "a zero byte stands after the page",
        |_, reply| {
            if let Some(byte) = reply.rest().first_mut() {
                *byte = 0;
            }
        },
    ),
    fault("annex-rest-zeroed", "the rest is zeroed", |_, reply| {
        reply.rest().fill(0)
    }),
    fault(
        "annex-rest-of-pieces",
        "after the page stand lines of pieces that its runs hold",
        |x, reply| {
            if reply.written().is_some() {
                let pieces = text(&runs_where(&x.scene, |_| false));
                let page = page(&x.scene);
                let end = pieces.len().min(reply.buffer.len());
                if let Some(after) = pieces.get(page.len()..end) {
                    reply.buffer[page.len()..end].copy_from_slice(after);
                }
            }
        },
    ),
    fault(
        "annex-last-byte",
        "the last byte of the buffer is written",
        |_, reply| {
            if let Some(byte) = reply.rest().last_mut() {
                *byte = b'\n';
            }
        },
    ),
    fault("annex-bytes-less-1", "one byte less is told", |_, reply| {
        retold(reply, |len, _| len - 1)
    }),
    fault("annex-bytes-more-1", "one byte more is told", |_, reply| {
        retold(reply, |len, _| len + 1)
    }),
    fault(
        "annex-bytes-of-runs",
        "the last line's bytes are not told",
        |_, reply| retold(reply, |len, _| len - LINE),
    ),
    fault("annex-lines", "lines are told, not bytes", |_, reply| {
        retold(reply, |len, _| len / LINE)
    }),
    fault(
        "annex-bytes-lent",
        "the buffer's bytes are told",
        |_, reply| retold(reply, |_, lent| lent),
    ),
    fault("annex-bytes-left", "the bytes left are told", |_, reply| {
        retold(reply, |len, lent| lent - len)
    }),
    fault(
        "annex-bytes-of-the-longest",
        "the bytes of the longest page are told",
        |_, reply| retold(reply, |_, _| LONGEST),
    ),
    fault("annex-bytes-untold", "no bytes are told", |_, reply| {
        retold(reply, |_, _| 0)
    }),
    fault(
        "annex-flag-first",
        "a flag is told before the bytes",
        |_, reply| {
            if reply.written().is_some() {
                reply.outcome[2] = reply.outcome[1];
                reply.outcome[1] = 1;
            }
        },
    ),
    fault(
        "annex-values-unwritten",
        "the values after the first are not written",
        |_, reply| {
            if reply.written().is_some() {
                reply.outcome[2..].fill(UNWRITTEN);
            }
        },
    ),
    fault(
        "annex-bytes-returned",
        "the bytes are returned, not told",
        |_, reply| {
            if reply.written().is_some() {
                reply.outcome.swap(0, 1);
            }
        },
    ),
];

pub const fn fault(
    name: &'static str,
    slip: &'static str,
    alter: fn(&Annexed, &mut Written),
) -> Fault<Annexed> {
    Fault {
        name,
        slip,
        op: (),
        alter,
    }
}

/// Writes the page of other runs.
pub fn by(x: &Annexed, reply: &mut Written, runs: impl FnOnce(&Scene) -> Vec<Run>) {
    rewritten(x, reply, |_| text(&runs(&x.scene)));
}

/// Writes another page, if no row before 27 refuses.
pub fn rewritten(x: &Annexed, reply: &mut Written, other: impl FnOnce(&[u8]) -> Vec<u8>) {
    if reply.settled() {
        *reply = Written::page(x, &other(&page(&x.scene)));
    }
}

/// Tells another number, from the bytes of the page and of the buffer.
fn retold(reply: &mut Written, told: fn(usize, usize) -> usize) {
    if let Some(len) = reply.written() {
        reply.outcome[1] = told(len, reply.buffer.len()) as u64;
    }
}

fn unread(map: &mut [u8], place: usize) {
    if let Some(entry) = map.get_mut(place).filter(|entry| **entry <= 3) {
        *entry = 0;
    }
}

impl Written {
    /// Whether no row before 27 refuses.
    pub fn settled(&self) -> bool {
        matches!(self.outcome[0], 0 | 27)
    }

    /// The bytes of the page that is written.
    pub fn written(&self) -> Option<usize> {
        (self.outcome[0] == 0).then_some(self.outcome[1] as usize)
    }

    /// What the buffer has after the page.
    pub fn rest(&mut self) -> &mut [u8] {
        let start = self.written().unwrap_or(self.buffer.len());
        &mut self.buffer[start..]
    }
}
