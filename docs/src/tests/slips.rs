//! Slips: both checks are held equal, and to hand-made cases.

mod common;
use common::*;
use mshelovat_reference::gen::{self, Rng};
use mshelovat_reference::layout::Refusal;
use mshelovat_reference::object::walk;
use mshelovat_reference::slips::{check, check_plain};

fn both(log: &[u8], bundle: &[u8]) -> Result<usize, Refusal> {
    let answer = check(log, bundle);
    assert_eq!(answer, check_plain(log, bundle), "{bundle:?}");
    answer
}

/// Three overloads: starts 0, 36, 72.
fn three() -> Vec<u8> {
    joined(&[m2(), m2(), m2()])
}

const A: (u32, u32, u32) = (0, 36, 3);
const B: (u32, u32, u32) = (36, 36, 3);
const C: (u32, u32, u32) = (72, 36, 3);

#[test]
fn accepted() {
    assert_eq!(both(&three(), &slip(0, &[A, B, C])), Ok(3));
    let spread = joined(&[slip(0, &[B]), slip(7, &[]), slip(255, &[A, C])]);
    assert_eq!(both(&three(), &spread), Ok(3));
    let eight: Vec<Vec<u8>> = (0..8).map(|desk| slip(desk, &[])).collect();
    assert_eq!(both(&[], &joined(&eight)), Ok(0));
    assert_eq!(both(&[], &[]), Ok(0));
}

#[test]
fn shape() {
    let log = three();
    let first = slip(1, &[A, B, C]);
    for wrong in [
        "00",
        "0000",
        "000000",
        "00000000",
        "00000001 01",
        "00000003 01 02 00",
    ] {
        let bundle = joined(&[first.clone(), hex(wrong)]);
        assert_eq!(both(&log, &bundle), refused(20, 42), "{wrong}");
    }
    for wrong in [
        "00000002",
        "00000002 01",
        "0000000E 01 02 00000000 00000024 000000",
    ] {
        let bundle = joined(&[first.clone(), hex(wrong)]);
        assert_eq!(both(&log, &bundle), refused(20, 42), "{wrong}");
    }
    assert_eq!(both(&log, &hex("FFFFFFFE 01 02")), refused(20, 0));
    assert_eq!(both(&log, &hex("FFFFFFF2 01 02")), refused(20, 0));
}

#[test]
fn version_desk_order() {
    let log = three();
    let mut version = slip(1, &[A, B, C]);
    version[4] = 0;
    assert_eq!(both(&log, &version), refused(21, 0));
    let equal = joined(&[slip(4, &[A, B]), slip(4, &[C])]);
    assert_eq!(both(&log, &equal), refused(22, 30));
    let falling = joined(&[slip(4, &[A, B]), slip(3, &[C])]);
    assert_eq!(both(&log, &falling), refused(22, 30));
    assert_eq!(both(&log, &slip(1, &[B, A, C])), refused(23, 0));
    assert_eq!(both(&log, &slip(1, &[A, A, B, C])), refused(23, 0));
}

#[test]
fn ninth_comes_after_the_eighth_and_before_its_own_shape() {
    let mut slips: Vec<Vec<u8>> = (0..8).map(|desk| slip(desk, &[])).collect();
    slips.push(vec![0]);
    assert_eq!(both(&[], &joined(&slips)), refused(24, 48));
    slips[8] = slip(0, &[]);
    assert_eq!(both(&[], &joined(&slips)), refused(24, 48));
    slips[7][5] = 6;
    assert_eq!(both(&[], &joined(&slips)), refused(22, 42));
    slips[2][4] = 9;
    assert_eq!(both(&[], &joined(&slips)), refused(21, 12));
}

#[test]
fn numbers_within_one_slip_and_from_slip_to_slip() {
    let log = three();
    let mut all = joined(&[slip(5, &[]), slip(5, &[B, A])]);
    all[10] = 2;
    assert_eq!(both(&log, &all), refused(21, 6));
    all[10] = 1;
    assert_eq!(both(&log, &all), refused(22, 6));
    all[11] = 6;
    assert_eq!(both(&log, &all), refused(23, 6));
    // A later number in an earlier slip goes first.
    let early = joined(&[slip(5, &[B, A]), vec![0]]);
    assert_eq!(both(&log, &early), refused(23, 0));
}

#[test]
fn the_walk_comes_after_the_bundle_and_before_its_entries() {
    let mut log = three();
    log[106] = 1;
    assert_eq!(both(&log, &slip(1, &[B, A])), refused(23, 0));
    assert_eq!(both(&log, &[]), refused(8, 106));
    assert_eq!(both(&log, &slip(1, &[A, (1, 36, 3), B])), refused(8, 106));
    assert_eq!(both(&log[..100], &slip(1, &[A, B])), refused(5, 100));
}

#[test]
fn the_smallest_start_in_trouble() {
    let log = three();
    assert_eq!(both(&log, &slip(1, &[A, C])), refused(27, 36));
    assert_eq!(both(&log, &slip(1, &[A, (1, 36, 3), C])), refused(25, 1));
    assert_eq!(both(&log, &slip(1, &[A, (37, 36, 3), C])), refused(27, 36));
    assert_eq!(
        both(&log, &slip(1, &[A, B, C, (108, 36, 3)])),
        refused(25, 108)
    );
    assert_eq!(both(&[], &slip(1, &[A])), refused(25, 0));
    let twice = joined(&[slip(1, &[A, B, C]), slip(2, &[A, (35, 1, 1), C])]);
    assert_eq!(both(&log, &twice), refused(26, 0));
    let thrice = joined(&[slip(1, &[A, B, C]), slip(2, &[C]), slip(3, &[C])]);
    assert_eq!(both(&log, &thrice), refused(26, 72));
}

#[test]
fn stray_before_twice_before_unlisted() {
    let log = three();
    let wrong = (36, 40, 3);
    let beside = joined(&[slip(1, &[A, B, C]), slip(2, &[wrong])]);
    assert_eq!(both(&log, &beside), refused(25, 36));
    let all = joined(&[slip(1, &[A, B, C]), slip(2, &[wrong]), slip(3, &[B])]);
    assert_eq!(both(&log, &all), refused(25, 36));
    let only_wrong = slip(1, &[A, wrong, C]);
    assert_eq!(both(&log, &only_wrong), refused(25, 36));
    let two_wrong = joined(&[slip(1, &[A, wrong, C]), slip(2, &[(36, 36, 4)])]);
    assert_eq!(both(&log, &two_wrong), refused(25, 36));
}

#[test]
fn honest_bundles_are_accepted() {
    let mut rng = Rng(11);
    for count in 0..400 {
        let count = count % 40;
        let log = gen::sound_log(&mut rng, count);
        let bundle = gen::honest_bundle(&mut rng, &log);
        assert_eq!(both(&log, &bundle), Ok(count));
    }
}

/// Counts the answers: index 0 accepted, else the number.
fn tally(rng: &mut Rng, turns: usize, sound: bool) -> [usize; 32] {
    let mut met = [0; 32];
    for _ in 0..turns {
        let count = rng.below(12);
        let log = match sound {
            true => gen::sound_log(rng, count),
            false => gen::any_log(rng, count),
        };
        let bundle = gen::any_bundle(rng, &log);
        match both(&log, &bundle) {
            Ok(count) => {
                assert_eq!(walk(&log), Ok(count));
                met[0] += 1;
            }
            Err(refusal) => met[refusal.number as usize] += 1,
        }
    }
    met
}

#[test]
fn fast_and_plain_agree() {
    let sound = tally(&mut Rng(21), 20_000, true);
    for number in [0, 20, 21, 22, 23, 24, 25, 26, 27] {
        assert!(sound[number] > 50, "{number}: {sound:?}");
    }
    let any = tally(&mut Rng(22), 20_000, false);
    for number in [0, 1, 2, 3, 4, 5, 6, 7, 8, 9, 20, 21, 22, 23, 24, 25, 26, 27] {
        assert!(any[number] > 20, "{number}: {any:?}");
    }
}

/// Small numbers only, so that entries and objects meet by chance.
#[test]
fn fast_and_plain_agree_on_crowded_slips() {
    let mut rng = Rng(23);
    for _ in 0..20_000 {
        let count = rng.below(4);
        let log = joined(&vec![m2(); count]);
        let mut bundle = Vec::new();
        for desk in 0..rng.below(4) as u8 {
            let mut entries: Vec<(u32, u32, u32)> = Vec::new();
            for start in [0, 1, 36, 72, 108] {
                if rng.once_in(3) {
                    let size = if rng.once_in(6) { 35 } else { 36 };
                    entries.push((start, size, 3));
                }
            }
            bundle.extend(slip(desk, &entries));
        }
        let _ = both(&log, &bundle);
    }
}

/// 64 MiB. Run with --release --ignored.
#[test]
#[ignore = "large"]
fn sixty_four_mebibytes() {
    let mut rng = Rng(31);
    let log = gen::long_log(&mut rng, 64 << 20);
    let bundle = gen::honest_bundle(&mut rng, &log);
    let before = std::time::Instant::now();
    let answer = check(&log, &bundle);
    println!("{answer:?} in {:?}", before.elapsed());
    assert_eq!(answer, walk(&log));
}
