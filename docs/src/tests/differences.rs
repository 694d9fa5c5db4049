//! W-209: two logs compared. The rows are complete and in order, there are none
//! exactly where the logs are equal, and nothing but they is written.

mod common;
use common::*;
use mshelovat_reference::differences::{compare, Lent, Refused};
use mshelovat_reference::gen::{self, Rng, DAMAGES};
use mshelovat_reference::header::Header;
use mshelovat_reference::layout::{Refusal, TYPE_LIST};
use mshelovat_reference::object::{step, walk, Answer};

/// Number, start in the first, start in the second, kind.
type Row = [u64; 4];

type Rows = Result<Vec<Row>, Refused>;

/// What a slice holds before a call: numbers unlike their neighbours and unlike
/// those of the other slices.
fn pattern(slice: usize, room: usize) -> Vec<u64> {
    let number = |at| 0xA5A5_0000_0000 + 0x1_0000 * slice as u64 + at as u64;
    (0..room).map(number).collect()
}

/// A call on slices with these rooms: the answer, and the slices afterwards.
fn lent(first: &[u8], second: &[u8], rooms: [usize; 4]) -> (Result<usize, Refused>, [Vec<u64>; 4]) {
    let mut slices: [Vec<u64>; 4] = std::array::from_fn(|slice| pattern(slice, rooms[slice]));
    let [numbers, firsts, seconds, kinds] = &mut slices;
    let answer = compare(
        first,
        second,
        Lent {
            numbers,
            firsts,
            seconds,
            kinds,
        },
    );
    (answer, slices)
}

/// The rows in slices with these rooms. All numbers behind them stay, and after a
/// refusal all do.
fn rows_in(first: &[u8], second: &[u8], rooms: [usize; 4]) -> Rows {
    let (answer, slices) = lent(first, second, rooms);
    let count = answer.unwrap_or(0);
    for (slice, numbers) in slices.iter().enumerate() {
        assert_eq!(numbers[count..], pattern(slice, rooms[slice])[count..]);
    }
    let row = |at: usize| std::array::from_fn(|slice| slices[slice][at]);
    answer.map(|count| (0..count).map(row).collect())
}

/// The rows in slices with more room than any test here needs.
fn rows(first: &[u8], second: &[u8]) -> Rows {
    rows_in(first, second, [300, 301, 302, 303])
}

fn refusal<T>(log: u8, number: u8, place: usize) -> Result<T, Refused> {
    let refusal = Refusal { number, place };
    Err(Refused { log, refusal })
}

/// 10 belongs to neither log.
fn no_room<T>() -> Result<T, Refused> {
    refusal(0, 10, 0)
}

/// The starts of the objects of a log with the objects, or what it is refused by.
fn objects(log: &[u8]) -> Result<Vec<(usize, &[u8])>, Refusal> {
    let (mut objects, mut at) = (Vec::new(), 0);
    loop {
        match step(log, at) {
            Answer::Done => return Ok(objects),
            Answer::Refused(refusal) => return Err(refusal),
            Answer::Object(object) => {
                objects.push((at, object.bytes(log)));
                at = object.next;
            }
        }
    }
}

/// The rows, by the request's words on whole lists of objects.
fn expected(first: &[u8], second: &[u8]) -> Rows {
    let ours = objects(first).map_err(|refusal| Refused { log: 1, refusal })?;
    let theirs = objects(second).map_err(|refusal| Refused { log: 2, refusal })?;
    let mut rows = Vec::new();
    for number in 0..ours.len().max(theirs.len()) {
        let row = match (ours.get(number), theirs.get(number)) {
            (Some(one), Some(other)) if one.1 == other.1 => continue,
            (Some(one), Some(other)) => (one.0, other.0, 1),
            (Some(one), None) => (one.0, second.len(), 2),
            (None, Some(other)) => (first.len(), other.0, 3),
            (None, None) => unreachable!(),
        };
        rows.push([number as u64, row.0 as u64, row.1 as u64, row.2]);
    }
    Ok(rows)
}

/// Rooms around a number of rows: all alike, and each slice alone the shortest.
fn rooms_around(count: usize) -> Vec<[usize; 4]> {
    let mut rooms = Vec::new();
    for room in 0..=count + 1 {
        rooms.push([room; 4]);
        for slice in 0..4 {
            for more in [1, 5] {
                let mut one = [count + more; 4];
                one[slice] = room;
                rooms.push(one);
            }
        }
    }
    rooms
}

/// Two logs in every room that can matter, either way round.
fn holds(first: &[u8], second: &[u8]) {
    for (first, second) in [(first, second), (second, first)] {
        let expected = expected(first, second);
        assert_eq!(rows(first, second), expected);
        assert_eq!(
            expected == Ok(vec![]),
            first == second && walk(first).is_ok()
        );
        let count = expected.as_ref().map_or(1, Vec::len);
        for rooms in rooms_around(count) {
            let short = expected.is_ok() && rooms.iter().any(|room| *room < count);
            let told = if short { no_room() } else { expected.clone() };
            assert_eq!(rows_in(first, second, rooms), told, "{rooms:?}");
        }
    }
}

/// An overload on this channel, 36 bytes.
fn overload(channel: u8) -> Vec<u8> {
    let mut object = m2();
    object[32] = channel;
    object
}

/// A foreign object of this size, with its padding, its last byte this one.
fn foreign_piece(size: u32, last: u8) -> Vec<u8> {
    let mut object = foreign(size, 16);
    object[size as usize - 1] = last;
    gen::padded(object)
}

/// A log of overloads on these channels.
fn log(channels: &[u8]) -> Vec<u8> {
    channels.iter().flat_map(|c| overload(*c)).collect()
}

#[test]
fn equal_logs() {
    let mut rng = Rng(209);
    for count in 0..12 {
        let log = gen::sound_log(&mut rng, count);
        assert_eq!(rows(&log, &log.clone()), Ok(vec![]));
        assert_eq!(rows_in(&log, &log.clone(), [0; 4]), Ok(vec![]));
        // The very same memory.
        assert_eq!(rows_in(&log, &log, [3, 0, 1, 2]), Ok(vec![]));
    }
}

#[test]
fn both_empty() {
    assert_eq!(rows(&[], &[]), Ok(vec![]));
    assert_eq!(rows_in(&[], &[], [0; 4]), Ok(vec![]));
}

#[test]
fn one_empty() {
    let two = log(&[1, 2]);
    assert_eq!(rows(&two, &[]), Ok(vec![[0, 0, 0, 2], [1, 36, 0, 2]]));
    assert_eq!(rows(&[], &two), Ok(vec![[0, 0, 0, 3], [1, 0, 36, 3]]));
    holds(&two, &[]);
}

#[test]
fn a_pair_differs() {
    let rows_of = |second: &[u8]| rows(&log(&[1, 2, 3]), &log(second));
    assert_eq!(rows_of(&[9, 2, 3]), Ok(vec![[0, 0, 0, 1]]));
    assert_eq!(rows_of(&[1, 9, 3]), Ok(vec![[1, 36, 36, 1]]));
    assert_eq!(rows_of(&[1, 2, 9]), Ok(vec![[2, 72, 72, 1]]));
    let two = vec![[0, 0, 0, 1], [2, 72, 72, 1]];
    assert_eq!(rows_of(&[9, 2, 8]), Ok(two));
    let swapped = vec![[0, 0, 0, 1], [1, 36, 36, 1]];
    assert_eq!(rows_of(&[2, 1, 3]), Ok(swapped));
}

/// Where one log has no such object, its length stands for the start: that of the
/// whole log, whatever the pairs are.
#[test]
fn more_at_the_end() {
    let (long, short) = (log(&[1, 2, 3, 4]), log(&[1, 2]));
    let first = vec![[2, 72, 72, 2], [3, 108, 72, 2]];
    assert_eq!(rows(&long, &short), Ok(first));
    let second = vec![[2, 72, 72, 3], [3, 72, 108, 3]];
    assert_eq!(rows(&short, &long), Ok(second));
    let longer = joined(&[log(&[1]), foreign_piece(19, 5)]);
    assert_eq!(longer.len(), 58);
    let rows_of = vec![[1, 36, 36, 1], [2, 72, 58, 2], [3, 108, 58, 2]];
    assert_eq!(rows(&long, &longer), Ok(rows_of));
    let rows_of = vec![[1, 36, 36, 1], [2, 58, 72, 3], [3, 58, 108, 3]];
    assert_eq!(rows(&longer, &long), Ok(rows_of));
    holds(&long, &longer);
}

/// An object more in the middle shifts all pairs behind it.
#[test]
fn more_in_the_middle() {
    let short = log(&[1, 2, 3]);
    let more = joined(&[overload(1), wake_up(), log(&[2, 3])]);
    let expected = vec![[1, 36, 36, 1], [2, 72, 88, 1], [3, 108, 124, 3]];
    assert_eq!(rows(&short, &more), Ok(expected));
    let expected = vec![[1, 36, 36, 1], [2, 88, 72, 1], [3, 124, 108, 2]];
    assert_eq!(rows(&more, &short), Ok(expected));
    // One like its neighbours shows at the end alone.
    let (four, five) = (log(&[7; 4]), log(&[7; 5]));
    assert_eq!(rows(&four, &five), Ok(vec![[4, 144, 144, 3]]));
    for place in 0..=3 {
        let mut channels = vec![1, 2, 3];
        channels.insert(place, 9);
        holds(&log(&channels), &short);
        channels.insert(place, 8);
        holds(&log(&channels), &short);
        channels.insert(place, 1);
        holds(&log(&channels), &short);
    }
}

/// The same objects behind others that stand elsewhere are equal: only the bytes
/// count, not the starts.
#[test]
fn equal_at_other_starts() {
    let first = joined(&[overload(1), wake_up(), overload(2)]);
    let second = joined(&[wake_up(), wake_up(), overload(2)]);
    assert_eq!(rows(&first, &second), Ok(vec![[0, 0, 0, 1]]));
    let longer = joined(&[wake_up(), wake_up(), overload(3)]);
    let expected = vec![[0, 0, 0, 1], [2, 88, 104, 1]];
    assert_eq!(rows(&first, &longer), Ok(expected));
}

/// Sizes that leave something over: the starts count the padding, what is
/// compared does not have it.
#[test]
fn padding() {
    for size in 16..=23 {
        let next = u64::from(size + size % 4);
        let pair = |last, channel| joined(&[foreign_piece(size, last), overload(channel)]);
        let (first, second) = (pair(1, 1), pair(1, 2));
        assert_eq!(first.len() as u64, next + 36);
        assert_eq!(rows(&first, &second), Ok(vec![[1, next, next, 1]]));
        assert_eq!(rows(&first, &pair(2, 1)), Ok(vec![[0, 0, 0, 1]]));
        let alone = foreign_piece(size, 1);
        assert_eq!(rows(&first, &alone), Ok(vec![[1, next, next, 2]]));
        assert_eq!(rows(&alone, &first), Ok(vec![[1, next, next, 3]]));
        let empty = vec![[0, 0, next, 2], [1, next, next, 2]];
        let shorter = joined(&[foreign_piece(size, 1), overload(1)]);
        let expected: Vec<Row> = empty.iter().map(|[n, at, _, k]| [*n, *at, 0, *k]).collect();
        assert_eq!(rows(&shorter, &[]), Ok(expected));
        holds(&first, &second);
        holds(&first, &alone);
    }
}

/// Wrong padding is no difference: the log that has it is refused, though its
/// objects are those of the other one.
#[test]
fn wrong_padding() {
    for size in [17, 18, 19] {
        let sound = foreign_piece(size, 1);
        for at in size as usize..sound.len() {
            let mut wrong = sound.clone();
            wrong[at] = 1;
            assert_eq!(rows(&wrong, &sound), refusal(1, 6, at));
            assert_eq!(rows(&sound, &wrong), refusal(2, 6, at));
            assert_eq!(rows(&wrong, &wrong), refusal(1, 6, at));
        }
    }
}

/// One object of another size than the other, all its bytes but the size alike.
#[test]
fn other_sizes() {
    for (one, other) in [(16, 17), (16, 20), (17, 18), (19, 20), (20, 24)] {
        let (first, second) = (foreign_piece(one, 0), foreign_piece(other, 0));
        assert_eq!(rows(&first, &second), Ok(vec![[0, 0, 0, 1]]));
        holds(&first, &second);
    }
    // The same record under both headers is two objects that differ.
    let [first, second] = both(m2());
    assert_eq!(rows(&first, &second), Ok(vec![[0, 0, 0, 1]]));
}

/// The same object, but for one byte.
fn changed(piece: &[u8], at: usize, by: u8) -> Vec<u8> {
    let mut changed = piece.to_vec();
    changed[at] ^= by;
    changed
}

/// Every byte of an object of each type under both headers, and of a foreign one,
/// changed by a bit and by more: a row, or what the walk is refused by.
#[test]
fn every_byte() {
    let mut rng = Rng(1);
    let mut differ = 0;
    let listed = TYPE_LIST.map(|row| row.kind);
    for kind in listed.into_iter().chain([9_999, 9_999]) {
        for header in Header::BOTH {
            let piece = gen::padded(gen::object_under(&mut rng, header, kind));
            let sound = joined(&[overload(1), piece.clone(), overload(2)]);
            for at in 0..piece.len() {
                for by in [1, 3, 0x80, rng.nonzero()] {
                    let other = changed(&sound, 36 + at, by);
                    let answer = rows(&sound, &other);
                    assert_eq!(answer, expected(&sound, &other));
                    assert_eq!(rows(&other, &sound), expected(&other, &sound));
                    match walk(&other) {
                        Ok(3) if at < 8 || at >= 12 => {
                            assert_eq!(answer, Ok(vec![[1, 36, 36, 1]]));
                            differ += 1;
                        }
                        Ok(_) => assert!(!answer.unwrap().is_empty()),
                        Err(refused) => {
                            assert_eq!(answer, refusal(2, refused.number, refused.place))
                        }
                    }
                }
            }
        }
    }
    assert!(differ > 5_000, "{differ}");
}

/// A byte of each field of a CAN message, by hand: all are compared.
#[test]
fn every_field() {
    let objects = both(bare(1, 48));
    for (object, header) in objects.iter().zip([32, 40]) {
        let sound = joined(&[wake_up(), object.clone()]);
        // Unit, client index or status, object version, time stamp.
        let mut fields = vec![(16, 3), (20, 1), (22, 1), (23, 1), (24, 1), (31, 0x80)];
        // Channel, flags, DLC, id, the first and the last data byte.
        let body = [0, 1, 2, 3, 4, 7, 8, 15];
        fields.extend(body.map(|at| (header + at, 0x10)));
        if header == 40 {
            // The original time stamp.
            fields.extend([(32, 1), (39, 1)]);
        }
        for (at, by) in fields {
            let other = changed(&sound, 52 + at, by);
            assert_eq!(rows(&sound, &other), Ok(vec![[1, 52, 52, 1]]), "{at}");
        }
        // The version must go with the header; the signature is always the same.
        assert_eq!(rows(&sound, &changed(&sound, 52 + 6, 4)), refusal(2, 4, 56));
        assert_eq!(rows(&sound, &changed(&sound, 52, 1)), refusal(2, 2, 52));
    }
    // Of a foreign object header size, version and type are compared too.
    let sound = joined(&[wake_up(), foreign_piece(21, 0)]);
    for (at, by) in [
        (4, 1),
        (6, 1),
        (7, 0x80),
        (12, 1),
        (15, 1),
        (16, 1),
        (20, 1),
    ] {
        let other = changed(&sound, 52 + at, by);
        assert_eq!(rows(&sound, &other), Ok(vec![[1, 52, 52, 1]]), "{at}");
    }
}

/// A refused log: this many overloads, then a damaged one, then one more; with
/// the refusal's number and place.
fn damaged(before: usize, number: u8) -> (Vec<u8>, usize) {
    let start = 36 * before;
    let front = log(&vec![1; before]);
    let (object, offset) = match number {
        1 => return ([&front[..], &m2()[..15]].concat(), start),
        2 => (changed(&m2(), 3, 1), 0),
        3 => (changed(&m2(), 8, 4), 8),
        4 => (changed(&m2(), 6, 1), 4),
        5 => {
            let cut = [&front[..], &m2()[..35]].concat();
            return (cut, start + 35);
        }
        6 => (changed(&foreign_piece(18, 1), 19, 1), 19),
        7 => (changed(&m2(), 16, 1), 16),
        8 => (changed(&m2(), 35, 1), 35),
        _ => (flexray(255, 255), 56),
    };
    let log = joined(&[front, object, overload(1)]);
    (log, start + offset)
}

#[test]
fn either_damaged() {
    for number in 1..=9 {
        for before in 0..=3 {
            let (refused, place) = damaged(before, number);
            for sound in 0..=5 {
                let sound = log(&vec![1; sound]);
                assert_eq!(rows(&refused, &sound), refusal(1, number, place));
                assert_eq!(rows(&sound, &refused), refusal(2, number, place));
                holds(&refused, &sound);
            }
            // With rows before it.
            let other = log(&[9, 8, 7, 6, 5]);
            assert_eq!(rows(&refused, &other), refusal(1, number, place));
            assert_eq!(rows(&other, &refused), refusal(2, number, place));
            holds(&other, &refused);
        }
    }
}

/// The first log's refusal wins, wherever the second's stands.
#[test]
fn both_damaged() {
    for (number, other) in (1..=9).flat_map(|n| (1..=9).map(move |other| (n, other))) {
        for before in 0..=2 {
            for other_before in 0..=2 {
                let (first, place) = damaged(before, number);
                let (second, _) = damaged(other_before, other);
                assert_eq!(rows(&first, &second), refusal(1, number, place));
                assert_eq!(rows_in(&first, &second, [0; 4]), rows(&first, &second));
                holds(&first, &second);
            }
        }
    }
}

/// Each log's refusal comes before 10.
#[test]
fn before_room() {
    let (refused, place) = damaged(2, 7);
    let other = log(&[9, 9, 9, 9]);
    for rooms in [[0; 4], [1, 0, 1, 1], [9; 4]] {
        assert_eq!(rows_in(&refused, &other, rooms), refusal(1, 7, place));
        assert_eq!(rows_in(&other, &refused, rooms), refusal(2, 7, place));
    }
}

/// Every room up to one more than enough in each of the four slices, for 0 to 3
/// rows of each mixture of kinds.
#[test]
fn every_room() {
    let pairs: [(&[u8], &[u8]); 9] = [
        (&[1, 2], &[1, 2]),
        (&[1], &[2]),
        (&[1, 2], &[1]),
        (&[1], &[1, 2]),
        (&[1, 2, 3], &[1, 9]),
        (&[1, 9], &[1, 2, 3]),
        (&[1, 2, 3], &[4, 2, 6]),
        (&[1, 2, 3, 4, 5], &[1, 9]),
        (&[9, 2], &[1, 2, 3, 4]),
    ];
    for (first, second) in pairs.map(|(first, second)| (log(first), log(second))) {
        let expected = expected(&first, &second).unwrap();
        let most = expected.len() + 1;
        let room = |code: usize, slice: u32| code / (most + 1).pow(slice) % (most + 1);
        for code in 0..(most + 1).pow(4) {
            let rooms = [0, 1, 2, 3].map(|slice| room(code, slice));
            let shortest = *rooms.iter().min().unwrap();
            let told = if shortest < expected.len() {
                no_room()
            } else {
                Ok(expected.clone())
            };
            assert_eq!(rows_in(&first, &second, rooms), told, "{rooms:?}");
        }
    }
}

/// Exactly the numbers of the rows change.
#[test]
fn later_numbers_stay() {
    let (answer, slices) = lent(&log(&[1, 2, 3]), &log(&[1, 9]), [2, 3, 4, 5]);
    assert_eq!(answer, Ok(2));
    let fronts: [[u64; 2]; 4] = [[1, 2], [36, 72], [36, 72], [1, 2]];
    for (slice, front) in fronts.into_iter().enumerate() {
        let expected = [&front, &pattern(slice, 2 + slice)[2..]].concat();
        assert_eq!(slices[slice], expected);
    }
    let (answer, slices) = lent(&log(&[1, 2, 3]), &log(&[1, 9]), [2, 3, 1, 5]);
    assert_eq!(answer, no_room());
    let kept = [2, 3, 1, 5].into_iter().enumerate();
    let kept: Vec<_> = kept.map(|(slice, room)| pattern(slice, room)).collect();
    assert_eq!(slices.to_vec(), kept);
}

/// A log with some of its objects changed, taken out, put in or swapped.
fn edited(rng: &mut Rng, log: &[u8]) -> Vec<u8> {
    let objects = objects(log).unwrap();
    let padded = |(_, object): &(usize, &[u8])| gen::padded(object.to_vec());
    let mut pieces: Vec<Vec<u8>> = objects.iter().map(padded).collect();
    for _ in 0..rng.below(4) {
        let at = rng.below(pieces.len() + 1);
        match rng.below(5) {
            0 => pieces.insert(at, gen::sound_log(rng, 1)),
            1 => pieces.truncate(at),
            2 if at < pieces.len() => drop(pieces.remove(at)),
            3 if at < pieces.len() => pieces.swap(0, at),
            _ if at < pieces.len() => {
                let byte = rng.below(pieces[at].len());
                pieces[at][byte] ^= rng.nonzero();
            }
            _ => {}
        }
    }
    pieces.concat()
}

/// As the request's words on whole lists say, in rooms of any size.
#[test]
fn as_whole_lists() {
    let mut rng = Rng(31);
    let mut seen = [0; 4];
    for turn in 0..20_000 {
        let count = rng.below(8);
        let sound = gen::sound_log(&mut rng, count);
        let other = match turn % 4 {
            0 => gen::any_log(&mut rng, count),
            1 => gen::damaged_log(&mut rng, count, DAMAGES[turn / 4 % DAMAGES.len()]),
            _ => edited(&mut rng, &sound),
        };
        let (first, second) = match rng.below(3) {
            0 => (other.clone(), edited(&mut rng, &sound)),
            1 => (other, sound),
            _ => (sound, other),
        };
        let expected = expected(&first, &second);
        let count = expected.as_ref().map_or(2, Vec::len);
        let rooms = [(); 4].map(|_| (count + 2).saturating_sub(rng.below(4)));
        let told = match &expected {
            Ok(_) if rooms.iter().any(|room| *room < count) => no_room(),
            told => told.clone(),
        };
        seen[match &told {
            Ok(rows) => usize::from(!rows.is_empty()),
            Err(refused) => 2 + usize::from(refused.log == 0),
        }] += 1;
        assert_eq!(rows_in(&first, &second, rooms), told);
        assert_eq!(rows(&first, &second), expected);
    }
    assert!(seen.iter().all(|times| *times > 500), "{seen:?}");
}

/// Every row of thousands, and one.
#[test]
fn thousands() {
    let objects = 10_000;
    let channels: Vec<u8> = (0..objects).map(|i| (i % 251) as u8).collect();
    let (first, mut second) = (log(&channels), log(&channels));
    assert_eq!(rows_in(&first, &second, [0; 4]), Ok(vec![]));
    let last = 36 * (objects - 1);
    second[last + 24] ^= 1;
    let row = [objects as u64 - 1, last as u64, last as u64, 1];
    assert_eq!(rows_in(&first, &second, [1; 4]), Ok(vec![row]));
    let other: Vec<u8> = channels.iter().map(|c| c ^ 0x80).collect();
    let all: Vec<Row> = (0..objects as u64)
        .map(|n| [n, 36 * n, 36 * n, 1])
        .collect();
    assert_eq!(rows_in(&first, &log(&other), [objects; 4]), Ok(all));
    let rooms = [objects, objects, objects - 1, objects];
    assert_eq!(rows_in(&first, &log(&other), rooms), no_room());
}

/// An answer in the words of the shared cases.
fn in_words(answer: Rows) -> String {
    let row = |row: &Row| row.map(|number| number.to_string()).join(",");
    match answer {
        Ok(rows) if rows.is_empty() => "rows -".to_string(),
        Ok(rows) => format!(
            "rows {}",
            rows.iter().map(row).collect::<Vec<_>>().join(";")
        ),
        Err(Refused { log, refusal: r }) => {
            format!("refused {} at {} log {log}", r.number, r.place)
        }
    }
}

/// The answers of another reading of the papers.
#[test]
fn shared_cases() {
    let mut held = 0;
    let bytes = |text: &str| hex(text.trim_start_matches('-'));
    for case in include_str!("cases/W-209.txt").lines().skip(1) {
        println!("{case}");
        let (question, answer) = case.split_once(" = ").unwrap();
        let words: Vec<&str> = question.split(' ').collect();
        let ["compare", first, second, room] = words[..] else {
            panic!("no case: {question}");
        };
        let room = room.parse().unwrap();
        let ours = rows_in(&bytes(first), &bytes(second), [room; 4]);
        assert_eq!(in_words(ours), answer);
        held += 1;
    }
    assert_eq!(held, 90);
}
