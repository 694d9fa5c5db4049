//! The cases: by a sweep over the two headers, over the padding, over the places of refusals, over types 86 and 100,
//! and over the bytes, lengths and rooms of one object of each type under each header and of a bundle, and at random.
use super::{can_fd, headers, padding, places};
use mshelovat_reference::gen::{self, Rng, DAMAGES, FAULTS, LISTED};
use mshelovat_reference::header::Header;
use mshelovat_reference::layout::{self, kind, occupied, put, u32_at};
use mshelovat_reference::object::{has_frame, step, Answer};

/// The most bytes of a log, and of a bundle.
pub const LIMIT: usize = 65_536;

/// A question with all it needs.
pub struct Case {
    pub question: u8,
    /// The position, or the room.
    pub number: u64,
    pub log: Vec<u8>,
    /// The bundle; the type that a read wants.
    pub behind: Vec<u8>,
}

impl Case {
    pub fn bytes(&self) -> Vec<u8> {
        let mut bytes = vec![self.question];
        bytes.extend((self.log.len() as u32).to_le_bytes());
        bytes.extend((self.behind.len() as u32).to_le_bytes());
        bytes.extend(self.number.to_le_bytes());
        bytes.extend(&self.log);
        bytes.extend(&self.behind);
        bytes
    }

    /// The room of a case that writes; else 0.
    pub fn room(&self) -> usize {
        match self.question {
            4 | 6 | 7 => self.number as usize,
            _ => 0,
        }
    }

    /// The type that a read wants.
    pub fn wanted(&self) -> u32 {
        u32_at(&self.behind, 0)
    }

    /// Where a walk of the log ends: at its end, or at the first refused object's start.
    pub fn walked(&self) -> usize {
        let mut position = 0;
        while let Answer::Object(object) = step(&self.log, position) {
            position = object.next;
        }
        position
    }

    /// The start of what is refused, where a question that reads a log is answered so.
    pub fn refused_at(&self) -> usize {
        match self.question {
            1 | 5 => self.number as usize,
            _ => self.walked(),
        }
    }

    pub fn steps(log: Vec<u8>, number: u64) -> Case {
        Case {
            question: 1,
            number,
            log,
            behind: Vec::new(),
        }
    }

    pub fn walks(log: Vec<u8>) -> Case {
        Case {
            question: 2,
            ..Case::steps(log, 0)
        }
    }

    pub fn checks(log: Vec<u8>, behind: Vec<u8>) -> Case {
        Case {
            question: 3,
            number: 0,
            log,
            behind,
        }
    }

    pub fn reads(log: Vec<u8>, number: u64, wanted: u32) -> Case {
        Case {
            question: 5,
            number,
            log,
            behind: wanted.to_le_bytes().to_vec(),
        }
    }

    pub fn writes(question: u8, log: Vec<u8>, room: usize) -> Case {
        Case {
            question,
            number: room.min(LIMIT) as u64,
            log,
            behind: Vec::new(),
        }
    }
}

/// The cases of a seed, one after the other: every second one from the sweep, while it lasts.
pub struct Cases {
    rng: Rng,
    sweep: std::vec::IntoIter<Case>,
    number: usize,
}

impl Cases {
    pub fn new(seed: u64) -> Cases {
        let mut rng = Rng(seed);
        let sweep = sweep(&mut rng).into_iter();
        Cases {
            rng,
            sweep,
            number: 0,
        }
    }

    pub fn next_case(&mut self) -> Case {
        let number = self.number;
        self.number += 1;
        let swept = if number % 2 == 1 {
            self.sweep.next()
        } else {
            None
        };
        swept.unwrap_or_else(|| at_random(&mut self.rng, number / 2))
    }

    /// How many cases of the sweep were not asked for yet.
    pub fn left(&self) -> usize {
        self.sweep.len()
    }
}

/// A sound object of each type and size under a header: LIN in its three sizes, frames with padding.
fn one_of_each(rng: &mut Rng, header: Header) -> Vec<Vec<u8>> {
    let mut objects = Vec::new();
    for kind in LISTED.iter().chain(&[57, 57]) {
        let object = another(rng, header, *kind, &objects);
        objects.push(object);
    }
    objects
}

/// A sound object of a type, of another size than those that are there; a frame is short and has one, two or three
/// bytes of padding behind it, by its type.
fn another(rng: &mut Rng, header: Header, kind: u32, objects: &[Vec<u8>]) -> Vec<u8> {
    loop {
        let object = gen::object_under(rng, header, kind);
        let behind = layout::padding(object.len() as u32);
        let small = object.len() <= header.length() + 48 && behind == 1 + kind % 3;
        let there = |o: &Vec<u8>| u32_at(o, 12) == kind && o.len() == object.len();
        if (small || !has_frame(kind)) && !objects.iter().any(there) {
            return object;
        }
    }
}

fn sweep(rng: &mut Rng) -> Vec<Case> {
    let mut cases = headers::sweep(rng);
    cases.extend(padding::sweep(rng));
    cases.extend(places::sweep(rng));
    cases.extend(can_fd::sweep(rng));
    let mut objects = Header::BOTH.map(|header| one_of_each(rng, header)).concat();
    objects.push(gen::foreign(rng));
    for object in objects {
        sweep_reads(rng, &object, &mut cases);
        sweep_rooms(&object, &mut cases);
        sweep_writes(rng, &object, &mut cases);
    }
    sweep_bundle(rng, &mut cases);
    cases
}

/// The numbers below a length, but those that are neither among the first nor among the last few.
fn ends(length: usize, first: usize) -> impl Iterator<Item = usize> {
    (0..length).filter(move |at| *at < first || at + 8 > length)
}

/// The bytes to change in an object: all, but those far within an array of data. FlexRay's begins at 76 or 84.
fn bytes_of(object: &[u8]) -> impl Iterator<Item = usize> {
    let first = match u32_at(object, 12) {
        kind::FLEXRAY_RECEIVE => 100,
        _ => 192,
    };
    ends(object.len(), first)
}

/// An object and its padding, read: cut off around its header and its end, and each byte changed. A foreign one is
/// asked for as one of the thirteen.
fn sweep_reads(rng: &mut Rng, object: &[u8], cases: &mut Vec<Case>) {
    let kind = u32_at(object, 12);
    let wanted = if LISTED.contains(&kind) { kind } else { 1 };
    let log = gen::padded(object.to_vec());
    for at in ends(log.len(), 48) {
        cases.push(Case::reads(log[..at].to_vec(), 0, wanted));
    }
    for at in bytes_of(&log) {
        cases.push(Case::reads(changed(rng, &log, at), 0, wanted));
    }
}

/// How many bytes an object has with its padding.
pub fn whole(object: &[u8]) -> usize {
    occupied(object.len() as u32) as usize
}

/// An object, written: to no room and little, and to every room from a few bytes too little to a few more than enough.
fn sweep_rooms(object: &[u8], cases: &mut Vec<Case>) {
    for room in ends(whole(object) + 4, 2) {
        cases.push(Case::writes(6, object.to_vec(), room));
    }
}

/// An object, written: each byte changed but the type's, and in a LIN message the pair's, since its length would then
/// be none that a LIN message has.
fn sweep_writes(rng: &mut Rng, object: &[u8], cases: &mut Vec<Case>) {
    let kind = u32_at(object, 12);
    let kept = |at: usize| (12..16).contains(&at) || kind == 57 && (4..8).contains(&at);
    for at in bytes_of(object).filter(|at| !kept(*at)) {
        cases.push(Case::writes(6, changed(rng, object, at), whole(object)));
    }
}

/// Three slips that name six objects, checked: cut off at every length, and each byte changed.
fn sweep_bundle(rng: &mut Rng, cases: &mut Vec<Case>) {
    let log = gen::sound_log(rng, 6);
    let bundle = gen::bundle_bytes(&gen::honest_slips(rng, &log, 3));
    for at in 0..bundle.len() {
        cases.push(Case::checks(log.clone(), bundle[..at].to_vec()));
        cases.push(Case::checks(log.clone(), changed(rng, &bundle, at)));
    }
}

fn changed(rng: &mut Rng, bytes: &[u8], at: usize) -> Vec<u8> {
    let mut changed = bytes.to_vec();
    changed[at] ^= rng.nonzero();
    changed
}

/// One of the seven questions.
fn at_random(rng: &mut Rng, number: usize) -> Case {
    let turn = number / 7;
    match 1 + (number % 7) as u8 {
        1 => {
            let log = any_log(rng, turn);
            let number = any_position(rng, &log);
            Case::steps(log, number)
        }
        2 => Case::walks(any_log(rng, turn)),
        3 => checks(rng, turn),
        4 => {
            let log = often_sound(rng, turn);
            let room = any_room(rng, log.len());
            Case::writes(4, log, room)
        }
        5 => reads(rng, turn),
        6 => {
            let object = any_object(rng, turn);
            let room = any_room(rng, whole(&object));
            Case::writes(6, object, room)
        }
        _ => {
            let object = any_foreign(rng, turn);
            let room = any_room(rng, whole(&object));
            Case::writes(7, object, room)
        }
    }
}

/// Sound logs, logs with one damage, with two in one object, and any log; long ones now and then, up to the limit.
fn any_log(rng: &mut Rng, turn: usize) -> Vec<u8> {
    let few = rng.below(8);
    let damage = DAMAGES[(turn / 8) % DAMAGES.len()];
    let mut log = match turn % 8 {
        0 => gen::sound_log(rng, few),
        1 | 2 => gen::damaged_log(rng, few, damage),
        3 | 4 => gen::twice_damaged_log(rng, few, damage),
        5 if rng.once_in(20) => gen::long_log(rng, LIMIT - 2_048),
        5 => flipped(rng, few),
        _ => gen::any_log(rng, few),
    };
    log.truncate(LIMIT);
    log
}

/// A sound log with one bit of any byte turned.
fn flipped(rng: &mut Rng, few: usize) -> Vec<u8> {
    let mut log = gen::sound_log(rng, few + 1);
    let at = rng.below(log.len());
    log[at] ^= 1 << rng.below(8);
    log
}

/// A sound log half the time: else bundles and records are hardly reached.
fn often_sound(rng: &mut Rng, turn: usize) -> Vec<u8> {
    if rng.once_in(2) {
        let few = rng.below(10);
        return gen::sound_log(rng, few);
    }
    any_log(rng, turn)
}

fn any_position(rng: &mut Rng, log: &[u8]) -> u64 {
    if rng.once_in(4) {
        return rng.number();
    }
    gen::position(rng, log) as u64
}

/// A check: honest bundles, bundles with one fault, and any bundle.
fn checks(rng: &mut Rng, turn: usize) -> Case {
    let log = often_sound(rng, turn);
    let mut behind = match turn % 4 {
        0 => gen::honest_bundle(rng, &log),
        1 | 2 => gen::damaged_bundle(rng, &log, FAULTS[(turn / 4) % FAULTS.len()]),
        _ => gen::any_bundle(rng, &log),
    };
    behind.truncate(LIMIT);
    Case::checks(log, behind)
}

/// A read, mostly of the type that stands there.
fn reads(rng: &mut Rng, turn: usize) -> Case {
    let log = often_sound(rng, turn);
    let position = if rng.once_in(4) {
        any_position(rng, &log)
    } else {
        gen::an_object(rng, &log) as u64
    };
    let mut wanted = rng.pick(&LISTED);
    if let Answer::Object(object) = step(&log, position as usize) {
        if LISTED.contains(&object.kind) && !rng.once_in(8) {
            wanted = object.kind;
        }
    }
    Case::reads(log, position, wanted)
}

/// Room for a write: often enough, often exactly so or next to it.
fn any_room(rng: &mut Rng, length: usize) -> usize {
    match rng.below(4) {
        0 => rng.below(length + 1),
        1 => (length + 2).saturating_sub(rng.below(5)),
        _ => length + rng.below(64),
    }
}

/// Bytes to be written as the object that they are: each of the thirteen types in turn, and foreign ones.
fn any_object(rng: &mut Rng, turn: usize) -> Vec<u8> {
    match LISTED.get(turn % 16) {
        Some(kind) => gen::raw_object(rng, *kind),
        None => foreign_only(rng, turn / 16),
    }
}

/// Bytes offered as foreign: objects of the thirteen types too, and old copies of the two that were foreign.
fn any_foreign(rng: &mut Rng, turn: usize) -> Vec<u8> {
    match turn % 8 {
        6 => {
            let kind = rng.pick(&[kind::CAN_MESSAGE_2, kind::CAN_FD_MESSAGE]);
            gen::old_foreign(rng, kind)
        }
        7 => {
            let kind = rng.pick(&LISTED);
            gen::object(rng, kind)
        }
        _ => foreign_only(rng, turn),
    }
}

/// A foreign object, sound or damaged. Its type stays foreign.
fn foreign_only(rng: &mut Rng, turn: usize) -> Vec<u8> {
    let mut object = gen::foreign(rng);
    let length = object.len();
    match turn % 10 {
        0 => object.truncate(rng.below(length)),
        1 => object = gen::padded(object),
        2 => object.extend(gen::foreign(rng)),
        3 => object[rng.below(4)] ^= rng.nonzero(),
        4 => put(&mut object, 4, &(rng.below(20) as u16).to_le_bytes()),
        5 => put(&mut object, 4, &(length as u16 + 1).to_le_bytes()),
        6 => put(&mut object, 8, &(rng.number() as u32).to_le_bytes()),
        _ => {}
    }
    object
}
