//! Demand 3: a file of three stretches, the first ending with a block after its END line, the
//! third starting with a TITLE line, is answered as its stretches are, moved to their places.

use galebonnet_tests::generate::neon::NEON;
use galebonnet_tests::generate::{file, sound_block, Random};
use galebonnet_tests::independent::{pieces, read, walk, walk_lines, Answer, Walked};

/// An answer moved by so many bytes.
fn moved(walked: &Walked, by: usize) -> Walked {
    match *walked {
        Walked::Block { start, end } => Walked::Block { start: start + by, end: end + by },
        Walked::Stray { start, end } => Walked::Stray { start: start + by, end: end + by },
        other => other,
    }
}

/// A piece, and for a block its answer, its whole table and its positions bit by bit.
type Answered = (Walked, Option<(Answer, Vec<i32>, Vec<u64>)>);

/// The walk's answers with the reading of each block.
fn answers(file: &[u8], by: usize) -> Vec<Answered> {
    let reading = |walked: &Walked| {
        let Walked::Block { start, end } = *walked else { return (moved(walked, by), None) };
        let (mut table, mut positions) = (vec![1; 3856], vec![1.0; 1024]);
        let answer = read(&file[start..end], &mut table, &mut positions);
        let bits = positions.into_iter().map(f64::to_bits).collect();
        (moved(walked, by), Some((answer, table, bits)))
    };
    pieces(file).iter().map(reading).collect()
}

/// Any stretch, closed by a line feed if it holds something.
fn stretch(random: &mut Random) -> Vec<u8> {
    let mut stretch = file(random);
    if !stretch.is_empty() && stretch.last() != Some(&b'\n') {
        stretch.push(b'\n');
    }
    stretch
}

/// A stretch that ends with a block and its END line.
fn first_stretch(random: &mut Random) -> Vec<u8> {
    let mut first = stretch(random);
    first.extend(if random.chance(50) {
        NEON.as_bytes().to_vec()
    } else {
        b"##TITLE= open\nx\n##END= y\n".to_vec()
    });
    first
}

/// A stretch that starts with a TITLE line.
fn third_stretch(random: &mut Random) -> Vec<u8> {
    let block = if random.chance(50) { sound_block(random) } else { b"##TITLE= a\n".to_vec() };
    [block, if random.chance(50) { file(random) } else { Vec::new() }].concat()
}

#[test]
fn three_stretches_are_answered_one_by_one() {
    let mut random = Random::new(33);
    let mut middle_blocks = 0;
    for _ in 0..4_000 {
        let first = first_stretch(&mut random);
        let second = stretch(&mut random);
        let third = third_stretch(&mut random);
        let whole = [&first[..], &second, &third].concat();
        let parts =
            [answers(&first, 0), answers(&second, first.len()), answers(&third, first.len() + second.len())];
        assert_eq!(answers(&whole, 0), parts.concat(), "{}", whole.escape_ascii());
        middle_blocks +=
            parts[1].iter().filter(|(walked, ..)| matches!(walked, Walked::Block { .. })).count();
    }
    assert!(middle_blocks > 4_000, "only {middle_blocks} blocks in the middle stretches");
}

#[test]
fn a_title_line_parts_whatever_stands_before_it() {
    let mut random = Random::new(35);
    for _ in 0..2_000 {
        let (first, third) = (stretch(&mut random), third_stretch(&mut random));
        let whole = [&first[..], &third].concat();
        let parts = [answers(&first, 0), answers(&third, first.len())];
        assert_eq!(answers(&whole, 0), parts.concat(), "{}", whole.escape_ascii());
    }
}

#[test]
fn a_first_stretch_without_a_block_at_its_end_does_not_qualify() {
    let whole = [b"junk\n##END=\n", &b"more\n"[..], NEON.as_bytes()].concat();
    assert_eq!(pieces(&whole), [Walked::Stray { start: 0, end: 17 }, Walked::Block { start: 17, end: 105 }]);
    assert_eq!(pieces(b"junk\n##END=\n").len() + pieces(b"more\n").len() + pieces(NEON.as_bytes()).len(), 3);
}

#[test]
fn the_lengths_add_up_and_two_stray_runs_never_adjoin() {
    let mut random = Random::new(34);
    for _ in 0..3_000 {
        let file = file(&mut random);
        let mut place = 0;
        let mut stray_before = false;
        for piece in pieces(&file) {
            assert_eq!(walk(&file, place), piece);
            let (start, end, stray) = match piece {
                Walked::Block { start, end } => (start, end, false),
                Walked::Stray { start, end } => (start, end, true),
                other => panic!("{other:?} among the answers"),
            };
            assert!(start == place && end > start && end <= file.len() && !(stray && stray_before));
            assert!(stray || file[start..].starts_with(b"##"));
            place = end;
            stray_before = stray;
        }
        assert_eq!(place, file.len());
        assert_eq!(walk_lines(&file).lines().count(), pieces(&file).len());
    }
}
