//! Refusals, and slices of every length around the one that is needed.

use super::{Case, Group};
use crate::document::{self, FIRST_LIST, ONE_NODE, REFUSED};
use second::sheet::PLAIN;

/// The table of refusals.
pub fn refusals() -> Group {
    let mut group = Group::new("checking the table of refusals");
    for (name, bytes) in REFUSED {
        group.note(&format!(
            "{name}, with and without places and list: refused"
        ));
        group.check_bytes(bytes, &[0; 3], &[0; 8]);
        group.check_bytes(bytes, &[], &[]);
    }
    group.note("7: no places, or too few numbers: refused");
    for (places, list) in [(0, 2), (0, 0), (1, 1), (1, 0), (0, 9)] {
        group.check_bytes(&ONE_NODE, &vec![0; places], &vec![0; list]);
    }
    group.note("exactly one place and two numbers: yes");
    group.check_bytes(&ONE_NODE, &[0], &[0, 0]);
    group.note("inputs without a sheet: refused");
    for bytes in [&[][..], &[0x53], &[0x53, 0x50, 0x31]] {
        group.check_bytes(bytes, &[0], &[0, 0]);
    }
    group
}

/// Slices that are too short, long enough, and longer.
pub fn lengths() -> Group {
    let mut group = Group::new("checking with slices of every length");
    let bytes = document::first().bytes();
    let places = [0, 1, 0];
    group.note("first sheet, exactly three places and eight numbers: yes");
    group.check_bytes(&bytes, &places, &FIRST_LIST);
    group.note("too few places: refused");
    for count in 0..places.len() {
        group.check_bytes(&bytes, &places[..count], &FIRST_LIST);
    }
    group.note("too few numbers: refused");
    for count in 0..FIRST_LIST.len() {
        group.check_bytes(&bytes, &places, &FIRST_LIST[..count]);
    }
    group.note("too few of both, and too few of one but many of the other: refused");
    group.check_bytes(&bytes, &places[..2], &FIRST_LIST[..7]);
    group.check_bytes(&bytes, &[], &[]);
    group.check_bytes(&bytes, &[0; 20], &FIRST_LIST[..7]);
    group.check_bytes(&bytes, &places[..2], &[0; 20]);
    group.note("7 comes before a no for places or list: refused");
    group.check_bytes(&bytes, &[9, 9, 9], &FIRST_LIST[..7]);
    group.check_bytes(&bytes, &[9, 9], &FIRST_LIST);
    group.check_bytes(&bytes, &places[..2], &[5; 8]);
    group.check_bytes(&bytes, &places, &[5; 7]);
    group.note("6 comes before 7: refused");
    let longer = [&bytes[..], &[0x00]].concat();
    group.check_bytes(&longer, &places, &FIRST_LIST);
    group.check_bytes(&longer, &[], &[]);
    excess(&mut group);
    group
}

/// Adds cases with elements behind the ones that are needed.
fn excess(group: &mut Group) {
    group.note("elements behind are not looked at: yes");
    let case = Case::drawn(&document::stair(2, PLAIN));
    let bytes = case.draft.bytes();
    let garbage = [i32::MAX, i32::MIN, -1, 7];
    for count in 0..=garbage.len() {
        let places = [&case.places[..], &[65535, 0, 3, 3][..count]].concat();
        let list = [&case.list[..], &garbage[..count]].concat();
        group.check_bytes(&bytes, &places, &case.list);
        group.check_bytes(&bytes, &case.places, &list);
        group.check_bytes(&bytes, &places, &list);
    }
    group.note("nor do they mend what stands before them: no");
    let list = [&[0; 14][..], &case.list].concat();
    group.check_bytes(&bytes, &case.places, &list);
    let places = [&[0; 6][..], &case.places].concat();
    group.check_bytes(&bytes, &places, &case.list);
}
