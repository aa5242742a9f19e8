//! Packs that come and go, and the answers of watched queries.

use resource_manager::limits::{PACKS, QUERIES, QUERY_BYTES, QUERY_PARTS};
use resource_manager::{Board, Database, Error};

fn pack(text: &str) -> Database {
    Database::new_from_data(text.as_bytes()).unwrap()
}

fn answer(board: &Board, query: usize) -> Option<(u16, usize, &str)> {
    assert_eq!(board.answers(), (0..board.queries()).map(|query| board.answer(query)).collect::<Vec<_>>());
    board.answer(query).map(|found| (found.pack, found.place, std::str::from_utf8(found.value).unwrap()))
}

/// Three packs, the second of which has the better line for `a.b`.
fn three() -> Board {
    let mut board = Board::new();
    assert_eq!(board.watch("a.b", ""), Ok(0));
    for (number, text) in [(7, "a*b:old\n*c:x"), (9, "c:\na.b:new"), (2, "a*b:last")] {
        assert_eq!(board.arrive(number, &pack(text)), Ok(()));
    }
    board
}

#[test]
fn the_pack_its_place_and_the_value() {
    let mut board = three();
    assert_eq!(answer(&board, 0), Some((9, 6, "new")));
    assert_eq!(board.watch("c", ""), Ok(1));
    assert_eq!(answer(&board, 1), Some((9, 2, "")));
    assert_eq!(board.packs().collect::<Vec<_>>(), [7, 9, 2]);
    assert_eq!(board.queries(), 2);
}

#[test]
fn of_equals_the_later_arrival_wins() {
    let mut board = three();
    board.leave(9).unwrap();
    assert_eq!(answer(&board, 0), Some((2, 4, "last")));
    board.leave(7).unwrap();
    board.arrive(7, &pack("a*b:old")).unwrap();
    assert_eq!(answer(&board, 0), Some((7, 4, "old")));
    assert_eq!(board.packs().collect::<Vec<_>>(), [2, 7]);
}

#[test]
fn no_answer() {
    let mut board = three();
    assert_eq!(board.watch(".a", ""), Ok(1));
    assert_eq!((answer(&board, 1), answer(&board, 2), answer(&board, usize::MAX)), (None, None, None));
    for number in [7, 9, 2] {
        board.leave(number).unwrap();
    }
    assert_eq!(answer(&board, 0), None);
    assert_eq!(answer(&Board::default(), 0), None);
}

#[test]
fn a_report_before_a_pack_leaves() {
    let mut board = three();
    board.watch("c", "").unwrap();
    board.watch("d", "").unwrap();
    for number in [7, 9, 2] {
        let told = board.report(number).unwrap();
        let mut without = board.clone();
        without.leave(number).unwrap();
        let value = |board: &Board, query: usize| board.answer(query).map(|found| found.value.to_vec());
        let changed: Vec<usize> = (0..board.queries()).filter(|query| value(&board, *query) != value(&without, *query)).collect();
        assert_eq!(told, changed, "{number}");
    }
    assert_eq!(board.report(9), Ok(vec![0, 1]));
    assert_eq!((board.report(0), board.report(3)), (Err(Error::BadPackNumber), Err(Error::BadPackNumber)));
}

#[test]
fn all_answers_at_once() {
    let mut board = three();
    assert_eq!((board.watch(".a", ""), board.watch("c", "")), (Ok(1), Ok(2)));
    let told: Vec<_> =
        board.answers().into_iter().map(|found| found.map(|found| (found.pack, found.place, found.value))).collect();
    assert_eq!(told, [Some((9, 6, &b"new"[..])), None, Some((9, 2, &b""[..]))]);
    assert_eq!(Board::new().answers(), []);
}

#[test]
fn the_very_same_bytes_of_another_pack_are_no_change() {
    let mut board = Board::new();
    board.watch("a", "").unwrap();
    board.arrive(1, &pack("a:x")).unwrap();
    board.arrive(2, &pack("*a:y\na:x")).unwrap();
    assert_eq!((board.report(1), board.report(2)), (Ok(vec![]), Ok(vec![])));
    board.leave(1).unwrap();
    assert_eq!(board.report(2), Ok(vec![0]));
}

#[test]
fn what_is_refused_changes_nothing() {
    let mut board = three();
    let before = format!("{board:?}");
    assert_eq!(board.arrive(0, &pack("")), Err(Error::BadPackNumber));
    assert_eq!(board.arrive(9, &pack("")), Err(Error::BadPackNumber));
    assert_eq!((board.leave(0), board.leave(3)), (Err(Error::BadPackNumber), Err(Error::BadPackNumber)));
    assert_eq!(board.watch(&"a".repeat(QUERY_BYTES + 1), ""), Err(Error::LongQuery));
    assert_eq!(board.watch("", &"a.".repeat(QUERY_PARTS + 1)), Err(Error::ManyQueryParts));
    assert_eq!(format!("{board:?}"), before);
    assert_eq!(answer(&board, 0), Some((9, 6, "new")));
}

#[test]
fn a_seventeenth_pack_and_a_thirty_third_query() {
    let mut board = Board::new();
    for number in 1..=PACKS {
        board.arrive(number as u16, &pack("a:1")).unwrap();
    }
    assert_eq!(board.arrive(17, &pack("a:1")), Err(Error::FullBoard));
    assert_eq!(board.arrive(0, &pack("a:1")), Err(Error::FullBoard));
    for number in 0..QUERIES {
        assert_eq!(board.watch("a", ""), Ok(number));
    }
    assert_eq!(board.watch(&"a".repeat(QUERY_BYTES + 1), ""), Err(Error::FullBoard));
    assert_eq!(board.leave(1), Ok(()));
    assert_eq!(board.arrive(17, &pack("a:2")), Ok(()));
    assert_eq!(answer(&board, QUERIES - 1), Some((17, 2, "2")));
}

#[test]
fn a_pack_is_copied() {
    let mut board = Board::new();
    board.watch("a", "").unwrap();
    let mut database = pack("a:1");
    board.arrive(1, &database).unwrap();
    database.add(b"a:2").unwrap();
    assert_eq!(answer(&board, 0), Some((1, 2, "1")));
}

#[test]
fn more_than_512_entries_in_all() {
    let mut board = Board::new();
    board.watch("b", "").unwrap();
    for number in 1..=3 {
        board.arrive(number, &pack(&"a:x\n".repeat(512))).unwrap();
    }
    board.arrive(4, &pack("b:y")).unwrap();
    assert_eq!(answer(&board, 0), Some((4, 2, "y")));
}
