//! W-207: this crate's answers to question 7, and what must come among them.
use super::cases::Case;
use super::replies::{word, Break, Told};
use mshelovat_reference::layout::{number, u16_at, u32_at, u64_at, unit_holds};
use mshelovat_reference::records::Own;
use mshelovat_reference::tray::{self, Common, Trayed};

/// The most ids and time stamps of a tray that is asked for.
pub const MOST: usize = 8;
/// How long the first part is.
pub const LENGTH: usize = 120;

/// Where things stand in the first part.
pub mod field {
    pub const HEADER: usize = 0;
    pub const FLAGS: usize = 1;
    pub const DLC: usize = 2;
    pub const IDS_COUNT: usize = 3;
    pub const UNIT: usize = 4;
    /// The client index, or the status.
    pub const OWN: usize = 8;
    pub const VERSION: usize = 10;
    pub const CHANNEL: usize = 12;
    pub const STAMPS_COUNT: usize = 14;
    pub const ZERO: usize = 15;
    pub const ORIGINAL: usize = 16;
    pub const IDS: usize = 24;
    pub const STAMPS: usize = 56;
}

/// A tray, as it is asked for.
pub struct Tray {
    pub common: Common,
    pub ids: Vec<u32>,
    pub stamps: Vec<u64>,
    pub data: Vec<u8>,
}

impl Tray {
    /// The tray of a case.
    fn of(case: &Case) -> Tray {
        let part = &case.first[..];
        let own = match part[field::HEADER] {
            1 => Own::First {
                client_index: u16_at(part, field::OWN),
            },
            _ => Own::Second {
                status: part[field::OWN],
                original: u64_at(part, field::ORIGINAL),
            },
        };
        let common = Common {
            unit: u32_at(part, field::UNIT),
            own,
            version: u16_at(part, field::VERSION),
            channel: u16_at(part, field::CHANNEL),
            flags: part[field::FLAGS],
            dlc: part[field::DLC],
        };
        let ids = 0..usize::from(part[field::IDS_COUNT]);
        let stamps = 0..usize::from(part[field::STAMPS_COUNT]);
        Tray {
            common,
            ids: ids.map(|i| u32_at(part, field::IDS + 4 * i)).collect(),
            stamps: stamps
                .map(|i| u64_at(part, field::STAMPS + 8 * i))
                .collect(),
            data: case.second.clone(),
        }
    }

    /// How long each message is.
    pub fn size(&self) -> usize {
        self.common.own.header().length() + 16
    }

    /// How long all of them are.
    pub fn needed(&self) -> usize {
        self.size() * self.ids.len()
    }

    /// Do the three slices go together?
    fn is_even(&self) -> bool {
        let count = self.ids.len();
        self.stamps.len() == count && self.data.len() == 8 * count
    }

    fn write(&self, room: &mut [u8]) -> Trayed {
        tray::write(&self.common, &self.ids, &self.stamps, &self.data, room)
    }

    /// Each message alone at the front of the room, as if the place were not moved on.
    fn write_at_the_front(&self, room: &mut [u8]) -> Trayed {
        let messages = self.ids.iter().zip(&self.stamps).zip(self.data.chunks(8));
        for (written, ((id, stamp), data)) in messages.enumerate() {
            let one = tray::write(&self.common, &[*id], &[*stamp], data, room);
            if one.refusal.is_some() {
                return Trayed { written, ..one };
            }
        }
        Trayed {
            written: self.ids.len(),
            refusal: None,
        }
    }

    /// What the first message of an uneven tray is refused by, and 31 only where it is not.
    fn write_uneven(&self, room: &mut [u8]) -> Trayed {
        let first = &self.ids[..self.ids.len().min(1)];
        let (stamps, data) = (vec![0; first.len()], vec![0; 8 * first.len()]);
        let one = tray::write(&self.common, first, &stamps, &data, &mut room.to_vec());
        match one.refusal {
            Some(_) => one,
            None => self.write(room),
        }
    }
}

/// The answer to a case.
pub fn tell(case: &Case, page: &mut [u8], wrong: Break) -> Told {
    let tray = Tray::of(case);
    let room = &mut page[..case.room()];
    let Trayed { written, refusal } = match wrong {
        Break::Tray if tray.is_even() => tray.write_at_the_front(room),
        Break::Uneven if !tray.is_even() => tray.write_uneven(room),
        _ => tray.write(room),
    };
    let (number, place) = refusal.map_or((0, 0), |r| (r.number.into(), r.place as u64));
    Told {
        reply: [word::TRAYED, written as u64, number, place, 0],
        behind: room.to_vec(),
    }
}

/// What must come under each header, besides whole trays and those that end at 10.
#[rustfmt::skip]
const NEEDED: [&str; 19] = [
    "unit 1 written", "unit 2 written",
    "room exactly enough", "room one byte short", "room one byte more",
    "none, wrong unit", "none, no room", "none, wrong unit and no room",
    "refused 7", "refused 7 before 10",
    "refused 31, too few time stamps", "refused 31, too many time stamps",
    "refused 31, too few data", "refused 31, too many data",
    "refused 31, data one byte off", "refused 31, data eight bytes off",
    "refused 31, both wrong",
    "refused 31 before 7", "refused 31 before 10",
];

/// All that must come.
pub fn needed() -> Vec<String> {
    let mut needed: Vec<String> = NEEDED.iter().map(|name| name.to_string()).collect();
    needed.extend((0..=5).map(|count| format!("whole tray of {count}")));
    needed.extend((0..=4).map(|written| format!("refused 10 after {written}")));
    let both = ["first", "second"].into_iter();
    both.flat_map(|header| needed.iter().map(move |name| under(header, name)))
        .collect()
}

/// A name with question and header.
fn under(header: &str, name: &str) -> String {
    format!("7: {name}, {header} header")
}

/// What came, by name.
pub fn names(case: &Case, told: &Told) -> Vec<String> {
    let tray = Tray::of(case);
    let [_, written, refused, ..] = told.reply;
    let names = match refused as u8 {
        0 => whole_names(&tray, case.room()),
        number::TRAY => uneven_names(&tray, case.room()),
        number::UNIT => unit_names(&tray, case.room()),
        number => room_names(&tray, case.room(), number, written),
    };
    let header = match tray.common.own {
        Own::First { .. } => "first",
        Own::Second { .. } => "second",
    };
    names.iter().map(|name| under(header, name)).collect()
}

/// Those of these names that are due.
fn due<const N: usize>(names: [(bool, &'static str); N]) -> impl Iterator<Item = String> {
    let due = names.into_iter().filter(|(due, _)| *due);
    due.map(|(_, name)| name.to_string())
}

fn whole_names(tray: &Tray, room: usize) -> Vec<String> {
    let (count, unit) = (tray.ids.len(), tray.common.unit);
    let mut names = vec![format!("whole tray of {count}")];
    if count == 0 {
        let (wrong, empty) = (!unit_holds(unit), room == 0);
        names.extend(due([
            (wrong && !empty, "none, wrong unit"),
            (!wrong && empty, "none, no room"),
            (wrong && empty, "none, wrong unit and no room"),
        ]));
    } else {
        names.push(format!("unit {unit} written"));
        names.extend(due([
            (room == tray.needed(), "room exactly enough"),
            (room == tray.needed() + 1, "room one byte more"),
        ]));
    }
    names
}

fn room_names(tray: &Tray, room: usize, number: u8, written: u64) -> Vec<String> {
    let mut names = vec![format!("refused {number} after {written}")];
    let short = room + 1 == tray.needed();
    names.extend(due([(short, "room one byte short")]));
    names
}

fn unit_names(tray: &Tray, room: usize) -> Vec<String> {
    let short = room < tray.size();
    due([(true, "refused 7"), (short, "refused 7 before 10")]).collect()
}

fn uneven_names(tray: &Tray, room: usize) -> Vec<String> {
    let (ids, stamps, data) = (tray.ids.len(), tray.stamps.len(), tray.data.len());
    let off = data.abs_diff(8 * ids);
    // What the first message would be refused by.
    let unit = ids > 0 && !unit_holds(tray.common.unit);
    let short = ids > 0 && room < tray.size();
    due([
        (stamps < ids, "refused 31, too few time stamps"),
        (stamps > ids, "refused 31, too many time stamps"),
        (data < 8 * ids, "refused 31, too few data"),
        (data > 8 * ids, "refused 31, too many data"),
        (off == 1, "refused 31, data one byte off"),
        (off == 8, "refused 31, data eight bytes off"),
        (stamps != ids && off > 0, "refused 31, both wrong"),
        (unit, "refused 31 before 7"),
        (short, "refused 31 before 10"),
    ])
    .collect()
}
