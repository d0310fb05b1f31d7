//! Messages without a place, and how many pieces a message may have, in both services.

mod common;

use common::*;
use reference::RECORD;
use reference::random::Random;
use std::collections::HashSet;

/// Line and column of a 49.
type Placing = (u32, u32);

/// A service and a type that have messages.
#[derive(Clone, Copy)]
struct Sort {
    service: &'static str,
    code: &'static str,
    /// The record that the first piece of the first message is.
    first: usize,
    /// The field of the line, and where it begins. The column is behind it, then the text.
    line: u8,
    from: usize,
}

#[rustfmt::skip]
const SORTS: [Sort; 3] = [
    Sort { service: "01", code: "03", first: 5, line: 7, from: 17 },
    Sort { service: "04", code: "03", first: 6, line: 6, from: 16 },
    Sort { service: "04", code: "04", first: 7, line: 6, from: 16 },
];

impl Sort {
    fn drafts(self, messages: &[Vec<Placing>]) -> Vec<u8> {
        reference::records::messages(self.service, self.code, messages)
    }

    fn draft(self, message: &[Placing]) -> Vec<u8> {
        self.drafts(&[message.to_vec()])
    }

    /// The number and the field of a refusal, which is of this piece, counted from 1.
    fn fault(self, draft: &[u8], piece: usize) -> Option<(u8, u8)> {
        fault(draft, self.first + piece - 1)
    }

    /// The same, of the last piece of this message.
    fn last(self, message: &[Placing]) -> Option<(u8, u8)> {
        self.fault(&self.draft(message), message.len())
    }
}

/// What has no place: each line without a column, and each column without a line.
fn unplaced() -> Vec<Placing> {
    (0..=21).map(|line| (line, 0)).chain([(0, 1), (0, 2)]).collect()
}

fn shuffle(random: &mut Random, message: &mut [Placing]) {
    (1..message.len()).rev().for_each(|at| message.swap(at, random.index(at + 1)));
}

/// Full messages of 0 to 42 places, those without one between them or behind them.
fn full() -> Vec<Vec<Placing>> {
    let mut random = Random(3);
    let mut messages = Vec::new();
    for placed in 0..=42 {
        let rest = unplaced().into_iter().cycle().take(42 - placed);
        let behind: Vec<Placing> = every_place().into_iter().take(placed).chain(rest).collect();
        let mut between = behind.clone();
        shuffle(&mut random, &mut between);
        messages.extend([behind, between]);
    }
    messages
}

fn is_placed(&(line, column): &Placing) -> bool {
    line > 0 && column > 0
}

#[test]
fn accepted_and_never_clash() {
    for sort in SORTS {
        for without in unplaced() {
            for times in [1, 2, 42] {
                assert_eq!(sort.last(&vec![without; times]), None, "{without:?}");
            }
        }
        assert_eq!(sort.last(&unplaced()), None);
    }
}

/// No place is taken by it, and one that was taken before stays so.
#[test]
fn takes_no_place() {
    for sort in SORTS {
        for without in unplaced() {
            let around = every_place().into_iter().flat_map(|place| [without, place]);
            let around: Vec<Placing> = around.take(42).collect();
            assert_eq!(sort.last(&around), None);
            for place in every_place() {
                assert_eq!(sort.last(&[without, place, without]), None);
                assert_eq!(sort.last(&[without, place, place]), Some((17, 7)));
                assert_eq!(sort.last(&[place, without, place]), Some((17, 7)));
            }
        }
    }
}

/// A line of 000 does not excuse the column, nor a column of 0 the line.
#[test]
fn the_other_is_sound() {
    for sort in SORTS {
        for line in 22..=999 {
            assert_eq!(sort.last(&[(line, 0)]), Some((7, sort.line)));
        }
        for column in 3..=9 {
            assert_eq!(sort.last(&[(0, column)]), Some((7, sort.line + 1)));
            assert_eq!(sort.last(&[(22, column)]), Some((7, sort.line)));
        }
        let draft = sort.draft(&[(0, 0)]);
        for line in ["   ", "  0", " 00", "0  ", "00 ", "00x", "0-0", "\u{1}00"] {
            let wrong = with(&draft, sort.first, sort.from, line);
            assert_eq!(sort.fault(&wrong, 1), Some((7, sort.line)), "{line:?}");
        }
        for column in (0..=255).filter(|byte| !b"012".contains(byte)) {
            let wrong = with_bytes(&draft, sort.first, sort.from + 3, &[column]);
            assert_eq!(sort.fault(&wrong, 1), Some((7, sort.line + 1)), "{column}");
        }
    }
}

/// The other fields of an unplaced 49 are judged as ever.
#[test]
fn the_rest_is_sound() {
    for sort in SORTS {
        for without in unplaced() {
            let draft = sort.draft(&[without]);
            let wrong = |position, text| sort.fault(&with(&draft, sort.first, position, text), 1);
            assert_eq!(wrong(sort.from + 4, "\u{1}"), Some((8, sort.line + 2)));
            assert_eq!(wrong(80, "1"), Some((7, sort.line + 3)));
            assert_eq!(wrong(15, "9"), Some((12, 5)));
        }
    }
    let draft = SORTS[0].draft(&[(0, 0)]);
    assert_eq!(SORTS[0].fault(&with(&draft, 5, 16, "0"), 1), Some((7, 6)));
}

#[test]
fn at_most_42_pieces() {
    for sort in SORTS {
        for message in full() {
            assert_eq!(sort.last(&message), None);
            let taken: HashSet<Placing> = message.iter().copied().filter(is_placed).collect();
            for piece in every_place().into_iter().chain(unplaced()) {
                let number = if taken.contains(&piece) { 17 } else { 23 };
                let more = [&message[..], &[piece]].concat();
                assert_eq!(sort.last(&more), Some((number, 7)), "{message:?} {piece:?}");
            }
        }
    }
}

/// The line, the column, 17, 23, the text, the filler.
#[test]
fn order_in_the_43rd() {
    for sort in SORTS {
        for message in full() {
            let taken = message.iter().copied().find(is_placed);
            let free = every_place().into_iter().find(|place| !message.contains(place));
            for (piece, number) in [(taken, 17), (free, 23), (Some((0, 2)), 23)] {
                let Some(piece) = piece else { continue };
                let draft = sort.draft(&[&message[..], &[piece]].concat());
                let last = sort.first + 42;
                let wrong = |position, text| sort.fault(&with(&draft, last, position, text), 43);
                assert_eq!(wrong(sort.from + 4, "\u{1}"), Some((number, 7)));
                assert_eq!(wrong(80, "1"), Some((number, 7)));
                assert_eq!(wrong(sort.from, "0220"), Some((7, sort.line)));
                assert_eq!(wrong(sort.from, "0003"), Some((7, sort.line + 1)));
                assert_eq!(wrong(15, "9"), Some((12, 5)));
                assert_eq!(wrong(7, "50"), Some((5, 4)));
                assert_eq!(wrong(81, "x"), Some((4, 0)));
            }
        }
    }
}

#[test]
fn begins_anew_in_each_transaction() {
    let (places, none) = (every_place(), vec![(0, 0); 42]);
    for sort in SORTS {
        let all = [places.clone(), none.clone(), none.clone(), places.clone(), places.clone()];
        assert!(judged(&sort.drafts(&all)).is_ok());
        // One too many in the third: two whole messages and three heads are before it.
        let over = [&none[..], &[(21, 2)]].concat();
        let draft = sort.drafts(&[places.clone(), none.clone(), over]);
        let record = 2 * 42 + 3 * (sort.first - 3) + 2 + 43;
        assert_eq!(fault(&draft, record), Some((23, 7)));
        // And in the next assignment, also of the other service.
        for other in SORTS {
            let next = with(&other.drafts(&[none.clone(), places.clone()]), 2, 18, "0000002");
            let both = [sort.draft(&none), next[RECORD..].to_vec()].concat();
            assert!(check(&closed(&both)).is_ok());
            assert_eq!(close(&both, 2 * both.len()).0, check(&closed(&both)));
        }
    }
}

/// What is refused in a message of these pieces, and at which: by the set of places taken and the
/// count of those without.
fn expected(message: &[Placing]) -> Option<(u8, usize)> {
    let (mut taken, mut without) = (HashSet::new(), 0);
    for (piece, placing) in (1..).zip(message) {
        if !is_placed(placing) {
            without += 1;
        } else if !taken.insert(placing) {
            return Some((17, piece));
        }
        if taken.len() + without > 42 {
            return Some((23, piece));
        }
    }
    None
}

#[test]
fn messages_by_chance() {
    let mut random = Random(23);
    let mut seen = [0u32; 24];
    for _ in 0..20_000 {
        let pieces = 38 + random.index(8);
        let unplaced = random.pick(&[0, 20, 50, 80, 100]);
        let mut places = every_place();
        shuffle(&mut random, &mut places);
        let message: Vec<Placing> = (0..pieces)
            .map(|at| {
                let (line, column) = places[at % 42];
                match random.percent(unplaced) {
                    true => random.pick(&[(line, 0), (0, column), (0, 0)]),
                    false if random.percent(1) => random.pick(&places),
                    false => (line, column),
                }
            })
            .collect();
        let sort = random.pick(&SORTS);
        let draft = sort.draft(&message);
        let wanted = expected(&message);
        let found = sort.fault(&draft, wanted.map_or(0, |(_, piece)| piece));
        assert_eq!(found, wanted.map(|(number, _)| (number, 7)), "{message:?}");
        seen[wanted.map_or(0, |(number, _)| number) as usize] += 1;
    }
    assert!([0, 17, 23].iter().all(|&number| seen[number] > 2_000), "{seen:?}");
}

#[test]
fn joined_and_parted() {
    for sort in SORTS {
        let draft = sort.drafts(&[vec![(0, 0); 42], unplaced()]);
        let file = closed(&with(&draft, 2, 18, "0000002"));
        let all = check(&file).unwrap().records as usize * RECORD + whole().len() - 2 * RECORD;
        let (joined, out) = join(&whole(), &file, all);
        assert_eq!(joined, check(&out));
        let (parted, [first, second]) = part(&out, 1, [whole().len(), file.len()]);
        assert!(parted.is_ok() && first == whole() && second == file);

        let over = closed(&sort.draft(&[(0, 0); 43]));
        let record = sort.first as u32 + 42;
        assert_eq!(join(&whole(), &over, 0).0, Err(of_operand(2, 23, record, 7)));
        assert_eq!(join(&over, &whole(), 0).0, Err(of_operand(1, 23, record, 7)));
        assert_eq!(part(&over, 1, [0, 0]).0, Err(refused(23, record, 7)));
    }
}
