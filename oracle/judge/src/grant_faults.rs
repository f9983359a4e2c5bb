//! Slips of a port in reading grants, and in noting what they give.

use std::collections::HashSet;

use crate::authorized::Granted;
use crate::authorized_faults::{fault, refused};
use crate::function::{with, Fault};
use crate::inputs::{words, Outcome};
use crate::maps::MAP_LEN;
use crate::p2m::NOBODY;
use crate::records::Grant;

pub const FAULTS: &[Fault<Granted>] = &[
    fault(
        "authorized-any-grantor",
        "the grantor is not compared",
        |x, answer| {
            *answer = with_grants(x, |x, grant| {
                let owner = x.frames.get(grant.frame as usize);
                grant.grantor = owner.map_or(grant.grantor, |frame| frame.owner);
            });
        },
    ),
    fault(
        "authorized-any-grantee",
        "the grantee is not compared",
        |x, answer| *answer = with_grants(x, |x, grant| grant.grantee = x.dom.into()),
    ),
    fault(
        "authorized-neighbouring-frame",
        "a grant of the next frame counts",
        |x, answer| {
            let copies = x.grants.iter().map(|grant| Grant {
                frame: grant.frame.saturating_sub(1),
                ..*grant
            });
            *answer = with(x, |x| {
                x.grants = copies.chain(x.grants.iter().copied()).collect()
            });
        },
    ),
    fault(
        "authorized-domains-of-16-bits",
        "grantor and grantee are cut to 16 bits",
        |x, answer| {
            *answer = with_grants(x, |_, grant| {
                (grant.grantor, grant.grantee) =
                    (grant.grantor % NOBODY as u32, grant.grantee % NOBODY as u32);
            });
        },
    ),
    fault(
        "authorized-frame-of-16-bits",
        "the high half of the granted frame is lost",
        |x, answer| *answer = with_grants(x, |_, grant| grant.frame %= 1 << 16),
    ),
    fault(
        "authorized-frame-modulo-512",
        "a grant of a frame past 511 is noted of one below",
        |x, answer| *answer = with_grants(x, |_, grant| grant.frame %= MAP_LEN as u32),
    ),
    fault(
        "authorized-write-by-a-read-grant",
        "a grant for reading is taken for one for writing",
        |x, answer| *answer = with_grants(x, |_, grant| grant.writable = 1),
    ),
    fault(
        "authorized-yes-only-by-1",
        "a grant whose writable is another number than 1 is for reading",
        |x, answer| {
            *answer = with_grants(x, |_, grant| grant.writable = (grant.writable == 1).into());
        },
    ),
    fault(
        "authorized-write-grant-not-for-reading",
        "a grant for writing does not cover reading",
        |x, answer| {
            let reads = with(x, |x| {
                x.map
                    .iter_mut()
                    .for_each(|byte| *byte *= u8::from(*byte != 2));
                x.grants.retain(|grant| grant.writable == 0);
            });
            if let Some(read) = refused(&reads) {
                if refused(answer).is_none_or(|mfn| read < mfn) {
                    *answer = reads;
                }
            }
        },
    ),
    fault(
        "authorized-first-grant-decides",
        "of several grants of a frame to the domain, only the first is read",
        |x, answer| *answer = with(x, |x| first_grants(&mut x.grants)),
    ),
    fault(
        "authorized-last-grant-decides",
        "of several grants of a frame to the domain, only the last is read",
        |x, answer| {
            *answer = with(x, |x| {
                x.grants.reverse();
                first_grants(&mut x.grants);
            });
        },
    ),
    fault(
        "authorized-void-grant-decides",
        "a grant that does not count takes back what others of its frame give",
        |x, answer| {
            *answer = with(x, |x| {
                let mut seen = HashSet::new();
                x.grants.reverse();
                x.grants.retain(|grant| seen.insert(grant.frame));
            });
        },
    ),
    fault(
        "authorized-readings-added-up",
        "two grants for reading make one for writing",
        |x, answer| {
            *answer = with_grants(x, |x, grant| {
                if x.grants.iter().filter(|other| *other == grant).count() > 1 {
                    grant.writable = 1;
                }
            });
        },
    ),
    fault(
        "authorized-own-writing-taken-back",
        "a domain's grant to itself for reading leaves it reading alone",
        |x, answer| {
            let dom = u32::from(x.dom);
            let own = |grant: &&Grant| {
                let frame = grant.frame as usize;
                (grant.grantor, grant.grantee, grant.writable) == (dom, dom, 0)
                    && x.frames.get(frame).is_some_and(|frame| frame.owner == dom)
                    && x.map.get(frame) == Some(&2)
            };
            let lowest = x.grants.iter().filter(own).map(|grant| grant.frame).min();
            let lowest =
                lowest.filter(|own| refused(answer).is_none_or(|mfn| (*own as usize) < mfn));
            if let Some(mfn) = lowest.filter(|_| ![2, 3].contains(&answer[0])) {
                *answer = words([24, dom.into(), mfn.into(), dom.into()]);
            }
        },
    ),
    fault(
        "authorized-last-grant-unread",
        "the list of grants is read one short",
        |x, answer| *answer = with(x, |x| _ = x.grants.pop()),
    ),
];

/// The port's answer to the map after a change of each grant.
fn with_grants(x: &Granted, change: impl Fn(&Granted, &mut Grant)) -> Outcome {
    let change_all = |changed: &mut Granted| {
        changed.grants.iter_mut().for_each(|grant| change(x, grant));
    };
    with(x, change_all)
}

/// Leaves the first of the grants that differ only in whether they are for writing.
fn first_grants(grants: &mut Vec<Grant>) {
    let mut kept: Vec<Grant> = Vec::new();
    for grant in grants.drain(..) {
        let same = |other: &Grant| {
            Grant {
                writable: grant.writable,
                ..*other
            } == grant
        };
        if !kept.iter().any(same) {
            kept.push(grant);
        }
    }
    *grants = kept;
}
