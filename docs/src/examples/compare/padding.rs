//! The cases on the padding: objects whose sizes leave 0, 1, 2 and 3 over when divided by four, alone and with others
//! around them.
use super::cases::{whole, Case};
use mshelovat_reference::gen::{self, Rng, LISTED};
use mshelovat_reference::header::Header;
use mshelovat_reference::layout::{self, kind, u32_at};
use mshelovat_reference::records::raw;

/// All of them.
pub fn sweep(rng: &mut Rng) -> Vec<Case> {
    let mut cases = Vec::new();
    // Behind this one a start leaves 2 over.
    let before = gen::padded(foreign(rng, 1));
    let overload = gen::object(rng, kind::CAN_OVERLOAD);
    for object in objects(rng) {
        for behind in [&[][..], &overload] {
            sweep_positions(&object, behind, &mut cases);
            sweep_bytes(rng, &object, behind, &mut cases);
            for before in [&[][..], &before] {
                sweep_logs(rng, before, &object, behind, &mut cases);
                sweep_old(before, &object, behind, &mut cases);
            }
        }
        sweep_rooms(&object, &mut cases);
    }
    cases
}

/// Frames under each header and foreign objects, whose sizes leave 0, 1, 2 and 3 over.
fn objects(rng: &mut Rng) -> Vec<Vec<u8>> {
    let mut objects = Vec::new();
    for over in 0..4 {
        for header in Header::BOTH {
            let frame = rng.bytes(8 + over as usize);
            let record = gen::record_under(rng, header, kind::ETHERNET_FRAME + over, &frame);
            objects.push(raw(&record));
        }
        objects.push(foreign(rng, over));
    }
    objects
}

/// A short foreign object whose size leaves so much over.
pub fn foreign(rng: &mut Rng, over: u32) -> Vec<u8> {
    loop {
        let object = gen::foreign(rng);
        if object.len() < 40 && layout::padding(object.len() as u32) == over {
            return object;
        }
    }
}

fn is_listed(object: &[u8]) -> bool {
    LISTED.contains(&u32_at(object, 12))
}

/// At positions that leave 0, 1, 2 and 3 over: stepped over, and read; a foreign one is asked for as a CAN message.
fn sweep_positions(object: &[u8], behind: &[u8], cases: &mut Vec<Case>) {
    let wanted = if is_listed(object) {
        u32_at(object, 12)
    } else {
        kind::CAN_MESSAGE
    };
    for front in 0..4 {
        let padded = gen::padded(object.to_vec());
        let log = [&[0xFF; 3][..front], &padded, behind].concat();
        cases.push(Case::steps(log.clone(), front as u64));
        cases.push(Case::reads(log, front as u64, wanted));
    }
}

/// Each byte of the padding set, and the log cut off before it.
fn sweep_bytes(rng: &mut Rng, object: &[u8], behind: &[u8], cases: &mut Vec<Case>) {
    let log = [&gen::padded(object.to_vec()), behind].concat();
    for at in object.len()..whole(object) {
        let mut set = log.clone();
        set[at] = rng.nonzero();
        cases.push(Case::steps(set.clone(), 0));
        cases.push(Case::walks(set));
        cases.push(Case::walks(log[..at].to_vec()));
    }
}

/// In a log: walked, checked, and written again to enough room and to a byte less.
fn sweep_logs(rng: &mut Rng, before: &[u8], object: &[u8], behind: &[u8], cases: &mut Vec<Case>) {
    let log = [before, &gen::padded(object.to_vec()), behind].concat();
    let bundle = gen::honest_bundle(rng, &log);
    cases.push(Case::walks(log.clone()));
    cases.push(Case::checks(log.clone(), bundle));
    for room in [log.len(), log.len() - 1] {
        cases.push(Case::writes(4, log.clone(), room));
    }
}

/// In a log, with the padding that document 01 had: walked, and stepped from there and from behind its own padding.
/// Even sizes have the same one.
fn sweep_old(before: &[u8], object: &[u8], behind: &[u8], cases: &mut Vec<Case>) {
    let mut old = object.to_vec();
    old.resize(object.len().next_multiple_of(4), 0);
    if old.len() == whole(object) {
        return;
    }
    let log = [before, &old, behind].concat();
    for at in [before.len(), before.len() + whole(object)] {
        cases.push(Case::steps(log.clone(), at as u64));
    }
    cases.push(Case::walks(log));
}

/// Written, a foreign one as such: to every room from a byte less than the object to more than any padding takes.
fn sweep_rooms(object: &[u8], cases: &mut Vec<Case>) {
    let question = if is_listed(object) { 6 } else { 7 };
    for room in object.len() - 1..object.len() + 5 {
        cases.push(Case::writes(question, object.to_vec(), room));
    }
}
