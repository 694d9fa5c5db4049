//! Compares the proved calls with the independent reader, and times walk, check, ASC lines and steps over a ring beside
//! it, on 64 MiB, and a tray of 100,000 CAN messages.
//! `docs/speed` builds and runs it: it needs the archive of `exported` for this processor, which `docs/native-object`
//! makes.

mod timed {
    use mshelovat_reference::asc::{self, LineAt};
    use mshelovat_reference::gen::{self, Rng};
    use mshelovat_reference::header::Header::{self, First, Second};
    use mshelovat_reference::layout::{self, number, Refusal};
    use mshelovat_reference::library::{self, End, Read};
    use mshelovat_reference::object::{self, Answer, Object};
    use mshelovat_reference::records::Own;
    use mshelovat_reference::tray::{self, Common, Trayed};
    use mshelovat_reference::{records, ring, slips};
    use std::cell::RefCell;
    use std::collections::BTreeSet;
    use std::hint::black_box;
    use std::time::Instant;

    /// The list of the objects from a position on, by the independent reader.
    fn plain_list(log: &[u8], mut at: usize, entries: &mut [[u64; 3]]) -> library::Listed {
        let (mut count, mut place) = (0, 0);
        let end = loop {
            if count == entries.len() {
                break End::Full;
            }
            match object::step(log, at) {
                Answer::Object(o) => {
                    entries[count] = [o.start as u64, o.size.into(), o.kind.into()];
                    (count, at) = (count + 1, o.next);
                }
                Answer::Done => break End::Done,
                Answer::Refused(r) => {
                    place = r.place;
                    break End::Refused(r.number);
                }
            }
        };
        library::Listed {
            count,
            at,
            place,
            end,
        }
    }

    /// The object of a type at a position, by the independent reader.
    fn plain_read(log: &[u8], at: usize, kind: u32, bytes: &mut [u8]) -> Read {
        match object::step(log, at) {
            Answer::Object(o) if o.kind != kind => Read::Other { next: o.next },
            Answer::Object(o) => match bytes.get_mut(..o.size as usize) {
                None => Read::Room,
                Some(front) => {
                    front.copy_from_slice(o.bytes(log));
                    let (size, next) = (front.len(), o.next);
                    Read::Object { size, next }
                }
            },
            Answer::Done => Read::Done,
            Answer::Refused(r) => Read::Refused(r),
        }
    }

    /// An object's bytes written as its record, by the independent reader.
    fn plain_write(bytes: &[u8], out: &mut [u8]) -> Result<usize, Refusal> {
        let (start, next) = (0, bytes.len());
        let (size, kind) = (next as u32, layout::u32_at(bytes, 12));
        let object = object::Object {
            start,
            size,
            kind,
            next,
        };
        records::write_any(&records::record_of(bytes, &object), out)
    }

    /// An object, now and then with a few bytes changed, but those of its type. A LIN message keeps its header's pair
    /// too: under another header its length would be none that a LIN message has.
    fn offered(rng: &mut Rng, kinds: &[u32]) -> Vec<u8> {
        let kind = rng.pick(kinds);
        let mut object = match rng.below(6) {
            0 => gen::foreign(rng),
            _ => gen::object(rng, kind),
        };
        let lin = layout::u32_at(&object, 12) == layout::kind::LIN_MESSAGE;
        for _ in 0..rng.below(3) {
            let at = rng.below(object.len());
            let kept = (12..16).contains(&at) || lin && (4..8).contains(&at);
            if !kept {
                object[at] = rng.byte();
            }
        }
        object
    }

    /// A call on a slice of one value: the answer, and the slice afterwards.
    fn lent<T: Copy, R>(fill: T, n: usize, call: impl Fn(&mut [T]) -> R) -> (R, Vec<T>) {
        let mut slice = vec![fill; n];
        (call(&mut slice), slice)
    }

    /// The two agree on the list from a position on, and on the object there.
    fn agree_at(rng: &mut Rng, log: &[u8], at: usize) {
        let n = rng.below(8);
        assert_eq!(
            lent([7; 3], n, |e| library::list(log, at, e)),
            lent([7; 3], n, |e| plain_list(log, at, e))
        );
        let (kind, n) = (rng.pick(&gen::LISTED), rng.pick(&[0, 47, 48, 2_000]));
        let kind = match object::step(log, at) {
            Answer::Object(o) if rng.below(4) != 0 => o.kind,
            _ => kind,
        };
        assert_eq!(
            lent(7, n, |b| library::read(log, at, kind, b)),
            lent(7, n, |b| plain_read(log, at, kind, b))
        );
    }

    /// The two agree on the writing of an object; gives the number.
    fn agree_write(rng: &mut Rng) -> u8 {
        let object = offered(rng, &gen::LISTED);
        let n = object.len() + rng.below(6);
        let plain = lent(7, n, |b| plain_write(&object, b));
        assert_eq!(lent(7, n, |b| library::write(&object, b)), plain);
        plain.0.map_or_else(|r| r.number, |_| 0)
    }

    /// The types that have a line.
    const CAN: [u32; 3] = [1, 3, 4];

    /// Room for a line: often too little by one or exactly enough.
    fn line_room(rng: &mut Rng, length: usize) -> usize {
        let any = rng.below(library::LONGEST_LINE + 1);
        let edges = [length.saturating_sub(1), length, length + 1, any];
        rng.pick(&edges)
    }

    /// The two agree on the line of the object at a position; gives the number.
    fn agree_line_at(rng: &mut Rng, log: &[u8], at: usize) -> u8 {
        let length = match asc::line_at(log, at, &mut [0; library::LONGEST_LINE]) {
            LineAt::Line { used, .. } => used,
            _ => 0,
        };
        let n = line_room(rng, length);
        let plain = lent(7, n, |b| asc::line_at(log, at, b));
        assert_eq!(lent(7, n, |b| library::line_at(log, at, b)), plain);
        match plain.0 {
            LineAt::Refused(r) => r.number,
            _ => 0,
        }
    }

    /// The two agree on the line of an object; gives the number, and the line where there is one.
    fn agree_line(rng: &mut Rng) -> (u8, Vec<u8>) {
        let object = offered(rng, &CAN);
        let mut line = vec![0; library::LONGEST_LINE];
        let used = asc::object_line(&object, &mut line).unwrap_or(0);
        line.truncate(used);
        let n = line_room(rng, used);
        let plain = lent(7, n, |b| asc::object_line(&object, b));
        assert_eq!(lent(7, n, |b| library::line(&object, b)), plain);
        (plain.0.map_or_else(|r| r.number, |_| 0), line)
    }

    /// The two agree on the reading of a text, which is a line or was one; gives the number.
    fn agree_read_line(rng: &mut Rng, mut text: Vec<u8>) -> u8 {
        let at = rng.below(text.len());
        let byte = rng.pick(b"0123456789ABCDEFabfx. \r\nRTdrOSBX%");
        match rng.below(6) {
            0 if !text.is_empty() => text[at] = byte,
            1 => text.insert(at, byte),
            2 if !text.is_empty() => drop(text.remove(at)),
            3 => text.truncate(at),
            _ => {}
        }
        let plain = asc::read_line(&text).map(|told| told.numbers());
        assert_eq!(library::read_line(&text), plain);
        plain.map_or_else(|r| r.number, |_| 0)
    }

    /// The size that the object at a position tells, no more than the log's; 0 where no object can be.
    fn told_size(log: &[u8], at: usize) -> usize {
        match log.get(at..) {
            Some(tail) if tail.len() >= 16 => (layout::u32_at(tail, 8) as usize).min(log.len()),
            _ => 0,
        }
    }

    /// The two agree on a step over a log that is cut in two, mostly within the object at the position; gives the
    /// number. The segments stand apart from each other and from the scratch.
    fn agree_ring(rng: &mut Rng, log: &[u8], at: usize) -> u8 {
        let size = told_size(log, at);
        let (any, within) = (rng.below(log.len() + 1), rng.below(size + 4));
        let within = at.saturating_add(within).min(log.len());
        let cut = rng.pick(&[any, within, within]);
        let (first, second) = (log[..cut].to_vec(), log[cut..].to_vec());
        let less = rng.below(size + 1);
        let n = rng.pick(&[0, size.saturating_sub(1), size, size, size + 1, less]);
        let plain = lent(7, n, |s| ring::step(&first, &second, at, s));
        let proved = lent(7, n, |s| library::ring_step(&first, &second, at, s));
        assert_eq!(proved, plain);
        match plain.0 {
            ring::Answer::Refused(r) => r.number,
            _ => 0,
        }
    }

    /// What the messages of a tray have in common; the unit is right.
    fn any_common(rng: &mut Rng, header: Header) -> Common {
        let own = match header {
            First => Own::First {
                client_index: rng.number() as u16,
            },
            Second => gen::second_own(rng),
        };
        Common {
            unit: rng.pick(&[1, 2]),
            own,
            version: rng.number() as u16,
            channel: rng.number() as u16,
            flags: rng.byte(),
            dlc: rng.byte(),
        }
    }

    /// How long each message of a tray is.
    fn message_size(header: Header) -> usize {
        header.length() + 16
    }

    /// The two agree on a small tray, now and then with a wrong unit or with slices that do not go together; gives the
    /// number, and how many were written.
    fn agree_tray(rng: &mut Rng) -> (u8, usize) {
        let (header, n) = (rng.pick(&Header::BOTH), rng.below(7));
        let mut common = any_common(rng, header);
        if rng.once_in(6) {
            common.unit = rng.pick(&[0, 3, 0x0100, 0x0201, u32::MAX]);
        }
        let (mut s, mut d) = (n, 8 * n);
        match rng.below(12) {
            0 => s = rng.below(8),
            1 => d = rng.below(60),
            2 => d = (d + 1).saturating_sub(rng.below(3)),
            _ => {}
        }
        let ids: Vec<u32> = (0..n).map(|_| rng.number() as u32).collect();
        let stamps: Vec<u64> = (0..s).map(|_| rng.number()).collect();
        let data = rng.bytes(d);
        let needed = n * message_size(header);
        let less = rng.below(needed + 1);
        let room = rng.pick(&[0, less, less, needed, needed.saturating_sub(1), needed + 9]);
        let plain = lent(7, room, |b| tray::write(&common, &ids, &stamps, &data, b));
        let proved = lent(7, room, |b| library::tray(&common, &ids, &stamps, &data, b));
        assert_eq!(proved, plain);
        let Trayed { written, refusal } = plain.0;
        (refusal.map_or(0, |r| r.number), written)
    }

    /// The two agree on logs, bundles, objects, lines, rings and trays, sound and damaged.
    fn agree(cases: usize) {
        let rng = &mut Rng(29);
        let [mut checked, mut written, mut placed, mut lines, mut texts, mut rings] =
            [const { BTreeSet::new() }; 6];
        let mut trays = BTreeSet::new();
        for _ in 0..cases {
            let count = rng.below(7);
            let log = gen::any_log(rng, count);
            let bundle = gen::any_bundle(rng, &log);
            let at = gen::position(rng, &log);
            let plain = slips::check(&log, &bundle);
            assert_eq!(library::walk(&log), object::walk(&log));
            assert_eq!(library::step(&log, at), object::step(&log, at));
            assert_eq!(library::check(&log, &bundle), plain);
            checked.insert(plain.map_or_else(|r| r.number, |_| 0));
            agree_at(rng, &log, 0);
            agree_at(rng, &log, at);
            written.insert(agree_write(rng));
            placed.insert(agree_line_at(rng, &log, 0));
            placed.insert(agree_line_at(rng, &log, at));
            let (number, line) = agree_line(rng);
            lines.insert(number);
            texts.insert(agree_read_line(rng, line));
            rings.insert(agree_ring(rng, &log, 0));
            rings.insert(agree_ring(rng, &log, at));
            trays.insert(agree_tray(rng));
        }
        assert!(lines.contains(&number::UNIT) && lines.contains(&number::ROOM));
        assert!(placed.contains(&number::UNIT) && placed.contains(&number::ROOM));
        assert!(texts.contains(&0) && texts.contains(&number::LINE));
        assert!(rings.contains(&0) && rings.contains(&number::SCRATCH));
        assert!((0..=6).all(|n| trays.contains(&(0, n))));
        assert!((0..=5).all(|n| trays.contains(&(number::ROOM, n))));
        assert!([number::UNIT, number::TRAY]
            .iter()
            .all(|n| trays.contains(&(*n, 0))));
        println!("{cases} logs, bundles, objects, lines, rings and trays: the same answers");
        println!("numbers of the check {checked:?}, of the write {written:?}");
        println!("numbers of the line {lines:?}, at a position {placed:?}, read {texts:?}");
        println!("numbers of a step over a ring {rings:?}");
        println!("numbers of a tray, and how many were written {trays:?}\n");
    }

    const LOG: usize = 64 << 20;
    const RUNS: usize = 16;
    /// Lines take some ten times as long as a walk.
    const LINE_RUNS: usize = 6;

    /// A copy in a buffer that was cleared first, so that all its pages are there.
    fn settled(bytes: Vec<u8>) -> Vec<u8> {
        let mut buffer = vec![1u8; bytes.len()];
        buffer.fill(0);
        buffer.copy_from_slice(&bytes);
        buffer
    }

    /// 64 MiB of sound objects; a few hundred come again and again in changing order.
    fn log_of(pieces: &[Vec<u8>], rng: &mut Rng) -> Vec<u8> {
        let mut log = Vec::with_capacity(LOG + 4_096);
        while log.len() < LOG {
            log.extend_from_slice(&pieces[rng.below(pieces.len())]);
        }
        settled(log)
    }

    /// Sound objects under a header, of these types, whose sizes lie in this range.
    fn pieces(
        rng: &mut Rng,
        header: Header,
        kinds: &[u32],
        least: usize,
        most: usize,
    ) -> Vec<Vec<u8>> {
        let mut pieces = Vec::new();
        while pieces.len() < 300 {
            let kind = rng.pick(kinds);
            let object = gen::object_under(rng, header, kind);
            if (least..=most).contains(&object.len()) {
                pieces.push(gen::padded(object));
            }
        }
        pieces
    }

    /// The types of the log of all kinds: the eleven that there were before W-208, so that its figures can be held
    /// against older ones.
    const MIXED: [u32; 11] = [1, 3, 4, 50, 57, 62, 103, 120, 121, 122, 123];

    /// One slip with everything, or eight equal ones: the objects in turn.
    fn bundle_of(log: &[u8], count: usize) -> Vec<u8> {
        let mut slips = gen::honest_slips(&mut Rng(5), log, 1);
        let all = std::mem::take(&mut slips[0].entries);
        let bundle: Vec<gen::Slip> = (0..count)
            .map(|desk| {
                let entries: Vec<_> = all.iter().skip(desk).step_by(count).copied().collect();
                let length = 2 + 12 * entries.len() as u32;
                gen::Slip {
                    length,
                    version: 1,
                    desk: desk as u8,
                    entries,
                }
            })
            .collect();
        settled(gen::bundle_bytes(&bundle))
    }

    /// A plain read of memory: the sum of its 8-byte words.
    fn read(bytes: &[u8]) -> u64 {
        let word = |w: &[u8]| u64::from_le_bytes(w.try_into().unwrap());
        bytes
            .chunks_exact(8)
            .fold(0, |sum, w| sum.wrapping_add(word(w)))
    }

    /// The best of several runs of each, in seconds: in turn, every other time from the last to the first, so that none
    /// always comes behind the same one.
    fn best<const N: usize>(runs: usize, calls: [&dyn Fn() -> u64; N]) -> [f64; N] {
        best_behind(&|| (), runs, calls)
    }

    /// The same, with something done before each run that is not timed.
    fn best_behind<const N: usize>(
        first: &dyn Fn(),
        runs: usize,
        calls: [&dyn Fn() -> u64; N],
    ) -> [f64; N] {
        let mut best = [f64::MAX; N];
        for run in 0..runs {
            for turn in 0..N {
                let i = if run % 2 == 0 { turn } else { N - 1 - turn };
                first();
                let before = Instant::now();
                black_box(calls[i]());
                best[i] = best[i].min(before.elapsed().as_secs_f64());
            }
        }
        best
    }

    fn count(answer: Result<usize, Refusal>) -> u64 {
        answer.expect("a sound log and an honest bundle") as u64
    }

    fn print(what: &str, bytes: usize, objects: u64, proved: f64, plain: f64, memory: f64) {
        let speed = |t: f64| bytes as f64 / t / 1e9;
        println!(
            "| {what} | {:.1} | {:.1} | {:.2} | {:.1} | {:.2} | {:.2} |",
            1e3 * proved,
            1e3 * plain,
            proved / plain,
            1e9 * proved / objects as f64,
            speed(proved),
            speed(memory)
        );
    }

    fn time(name: &str, pieces: &[Vec<u8>]) {
        let log = log_of(pieces, &mut Rng(17));
        let (one, eight) = (bundle_of(&log, 1), bundle_of(&log, 8));
        let objects = object::walk(&log);
        assert_eq!(library::walk(&log), objects);
        for bundle in [&one, &eight] {
            assert_eq!(library::check(&log, bundle), objects);
            assert_eq!(slips::check(&log, bundle), objects);
        }
        let t = best(
            RUNS,
            [
                &|| count(library::walk(black_box(&log))),
                &|| count(object::walk(black_box(&log))),
                &|| count(library::check(black_box(&log), &eight)),
                &|| count(slips::check(black_box(&log), &eight)),
                &|| count(library::check(black_box(&log), &one)),
                &|| count(slips::check(black_box(&log), &one)),
                &|| read(black_box(&log)),
            ],
        );
        let n = count(objects);
        let row = |call: &str, i: usize| {
            let what = format!("{name}, {n} objects: {call}");
            print(&what, log.len(), n, t[i], t[i + 1], t[6]);
        };
        row("walk", 0);
        row("check, eight equal slips", 2);
        row("check, one slip with everything", 4);
    }

    /// Times the walk alone.
    fn time_walk(name: &str, pieces: &[Vec<u8>]) {
        let log = log_of(pieces, &mut Rng(17));
        let objects = object::walk(&log);
        assert_eq!(library::walk(&log), objects);
        let [proved, plain, memory] = best(
            RUNS,
            [
                &|| count(library::walk(black_box(&log))),
                &|| count(object::walk(black_box(&log))),
                &|| read(black_box(&log)),
            ],
        );
        let n = count(objects);
        let what = format!("{name}, {n} objects: walk");
        print(&what, log.len(), n, proved, plain, memory);
    }

    /// Every line of a log, one after the other into a buffer that is cleared first: the sum of their lengths and of
    /// a byte of each. All bytes of a line have to be there.
    fn all_lines(log: &[u8], line_at: impl Fn(&[u8], usize, &mut [u8]) -> LineAt) -> u64 {
        let mut buffer = [0; library::LONGEST_LINE];
        let (mut at, mut sum) = (0, 0);
        loop {
            match line_at(log, at, &mut buffer) {
                LineAt::Line { used, next } => {
                    let line = black_box(&buffer[..used]);
                    sum += (used + usize::from(line[used / 2])) as u64;
                    at = next;
                }
                LineAt::Done => return sum,
                LineAt::Refused(refusal) => panic!("{refusal:?} in a sound log"),
            }
        }
    }

    /// The text of all lines, and where each ends.
    fn text_of(log: &[u8]) -> (Vec<u8>, Vec<usize>) {
        let mut buffer = [0; library::LONGEST_LINE];
        let (mut text, mut ends, mut at) = (Vec::new(), Vec::new(), 0);
        while let LineAt::Line { used, next } = asc::line_at(log, at, &mut buffer) {
            text.extend_from_slice(&buffer[..used]);
            ends.push(text.len());
            at = next;
        }
        (settled(text), ends)
    }

    /// What each line of a text tells: a sum over it. All its numbers have to be there.
    fn all_told(
        text: &[u8],
        ends: &[usize],
        read_line: impl Fn(&[u8]) -> Result<[u64; library::TOLD], Refusal>,
    ) -> u64 {
        let (mut start, mut sum) = (0, 0u64);
        for end in ends {
            let told = read_line(&text[start..*end]).expect("a line");
            sum = sum.wrapping_add(black_box(&told)[2]);
            start = *end;
        }
        sum
    }

    /// Times the lines of a log that has CAN objects alone, and these lines read again.
    fn time_lines(name: &str, pieces: &[Vec<u8>]) {
        let log = log_of(pieces, &mut Rng(17));
        let (text, ends) = text_of(&log);
        let proved = || all_lines(black_box(&log), library::line_at);
        let plain = || all_lines(black_box(&log), asc::line_at);
        let told = |text: &[u8]| asc::read_line(text).map(|told| told.numbers());
        let proved_told = || all_told(black_box(&text), &ends, library::read_line);
        let plain_told = || all_told(black_box(&text), &ends, told);
        assert_eq!((proved(), proved_told()), (plain(), plain_told()));
        let (log_read, text_read) = (|| read(black_box(&log)), || read(black_box(&text)));
        let n = ends.len() as u64;
        let [a, b, memory] = best(LINE_RUNS, [&proved, &plain, &log_read]);
        let what = format!("{name}, {n} objects: to ASC");
        print(&what, log.len(), n, a, b, memory);
        let [a, b, memory] = best(LINE_RUNS, [&proved_told, &plain_told, &text_read]);
        let what = format!("{name}, {n} lines: a line read");
        print(&what, text.len(), n, a, b, memory);
    }

    /// What is told of an object, as one number.
    fn told_of(object: Object) -> u64 {
        object.start as u64 + u64::from(object.size) + u64::from(object.kind)
    }

    /// Every object of a ring, one after the other: the sum of what is told of each.
    fn ring_steps(
        (first, second): (&[u8], &[u8]),
        step: impl Fn(&[u8], &[u8], usize, &mut [u8]) -> ring::Answer,
    ) -> u64 {
        let mut scratch = [0; 2_048];
        let (mut at, mut sum) = (0, 0u64);
        loop {
            let (object, lies) = match step(first, second, at, &mut scratch) {
                ring::Answer::First(object) => (object, 1),
                ring::Answer::Second(object) => (object, 2),
                ring::Answer::Copied(object) => (object, 3),
                ring::Answer::Done => break,
                ring::Answer::Refused(refusal) => panic!("{refusal:?} in a sound log"),
            };
            sum = sum.wrapping_add(told_of(object) + lies);
            at = object.next;
        }
        black_box(&scratch);
        sum
    }

    /// The same of a joined log.
    fn log_steps(log: &[u8], step: impl Fn(&[u8], usize) -> Answer) -> u64 {
        let (mut at, mut sum) = (0, 0u64);
        loop {
            match step(log, at) {
                Answer::Object(object) => {
                    sum = sum.wrapping_add(told_of(object));
                    at = object.next;
                }
                Answer::Done => return sum,
                Answer::Refused(refusal) => panic!("{refusal:?} in a sound log"),
            }
        }
    }

    /// Times the proved steps over a ring, which is a log cut in its middle, beside the same steps by the independent
    /// reader and beside other ways through the joined log. What a row's name has behind "beside" stands in the second
    /// column of times, proved or not.
    fn time_ring(name: &str, pieces: &[Vec<u8>]) {
        let log = log_of(pieces, &mut Rng(17));
        let n = count(object::walk(&log));
        let cut = || black_box(&log[..]).split_at(log.len() / 2);
        let proved = || ring_steps(cut(), library::ring_step);
        let plain = || ring_steps(cut(), ring::step);
        let steps = || log_steps(black_box(&log), library::step);
        let plain_steps = || log_steps(black_box(&log), object::step);
        assert_eq!((proved(), steps()), (plain(), plain_steps()));
        let t = best(
            RUNS,
            [
                &proved,
                &plain,
                &steps,
                &plain_steps,
                &|| count(library::walk(black_box(&log))),
                &|| count(object::walk(black_box(&log))),
                &|| read(black_box(&log)),
            ],
        );
        let row = |other: &str, i: usize| {
            let what = format!("{name}, {n} objects: ring steps, beside {other}");
            print(&what, log.len(), n, t[0], t[i], t[6]);
        };
        row("the same in Rust", 1);
        row("proved steps over the joined log", 2);
        row("steps over the joined log in Rust", 3);
        row("the proved walk of the joined log", 4);
        row("the walk of the joined log in Rust", 5);
    }

    /// A call that writes a tray.
    type Write = fn(&Common, &[u32], &[u64], &[u8], &mut [u8]) -> Trayed;

    /// Messages of the tray that is timed.
    const MESSAGES: usize = 100_000;
    /// A tray takes less than a millisecond.
    const TRAY_RUNS: usize = 100;

    /// Times one call that writes a tray. Both write to one buffer, which has exactly the room that is needed and is
    /// cleared before each run. All its bytes have to be there.
    fn time_tray(name: &str, rng: &mut Rng, header: Header) {
        let common = any_common(rng, header);
        let ids: Vec<u32> = (0..MESSAGES).map(|_| rng.bits() as u32).collect();
        let stamps: Vec<u64> = (0..MESSAGES).map(|_| rng.bits()).collect();
        let data: Vec<u8> = (0..8 * MESSAGES).map(|_| rng.byte()).collect();
        let needed = MESSAGES * message_size(header);
        let buffer = RefCell::new(vec![1u8; needed]);
        let clear = || black_box(&mut buffer.borrow_mut()[..]).fill(0);
        let written = |write: Write| {
            let mut buffer = buffer.borrow_mut();
            let (common, ids, stamps, data) = black_box((&common, &ids, &stamps, &data));
            let answer = write(common, ids, stamps, data, &mut buffer);
            black_box(&buffer[..]);
            assert_eq!(answer.refusal, None);
            answer.written as u64
        };
        let (proved, plain) = (|| written(library::tray), || written(tray::write));
        let bytes = |call: &dyn Fn() -> u64| {
            clear();
            assert_eq!(call(), MESSAGES as u64);
            buffer.borrow().clone()
        };
        let log = bytes(&plain);
        assert!(bytes(&proved) == log);
        assert_eq!(object::walk(&log), Ok(MESSAGES));
        let memory = || read(black_box(&buffer.borrow()));
        let [a, b, memory] = best_behind(&clear, TRAY_RUNS, [&proved, &plain, &memory]);
        let what = format!("100,000 messages, {name}: a tray");
        print(&what, needed, MESSAGES as u64, a, b, memory);
    }

    pub fn main() {
        agree(100_000);
        println!(
            "| log | proved, ms | Rust, ms | ratio | ns an object | GB/s | memory read, GB/s |"
        );
        println!("|---|---|---|---|---|---|---|");
        let rng = &mut Rng(3);
        let [mixed, can, ethernet, foreign] = [&MIXED[..], &[1], &[120], &[9_999]];
        time("48 to 1,676 bytes", &pieces(rng, First, mixed, 48, 1_676));
        time("48 bytes (CAN)", &pieces(rng, First, can, 48, 48));
        time(
            "1,676 bytes (Ethernet)",
            &pieces(rng, First, ethernet, 1_676, 1_676),
        );
        time(
            "16 to 2,000 bytes, foreign",
            &pieces(rng, First, foreign, 16, 2_000),
        );
        time_lines("48 bytes (CAN)", &pieces(rng, First, can, 48, 48));
        time_lines(
            "36 to 60 bytes (CAN, types 1, 3, 4)",
            &pieces(rng, First, &CAN, 36, 60),
        );
        time_walk(
            "56 bytes (CAN), second header",
            &pieces(rng, Second, can, 56, 56),
        );
        time_ring("48 bytes (CAN)", &pieces(rng, First, can, 48, 48));
        time_ring("48 to 1,676 bytes", &pieces(rng, First, mixed, 48, 1_676));
        time_tray("first header", rng, First);
        time_tray("second header", rng, Second);
    }
}

fn main() {
    timed::main();
}
