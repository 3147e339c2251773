//! Each refusal by hand, in the order of the checks.

use zenturpa::{Moved, move_lane};

const ORDER: &str = "(order 0 (0 1) (0 2 1) (3 0))";
const NOTICE: &str = "(notice 2 1 0 (0 3) (5 0))";

fn refused(line: &str, mode: u8, phase: u64, buffer: &[u8], len: usize, number: u8) -> (u32, usize) {
    let mut left = buffer.to_vec();
    let refusal = move_lane(line, mode, phase, &mut left, len, number).expect_err("a refusal");
    assert_eq!(left, buffer);
    assert!(refusal.to_string().starts_with(&format!("refused {} at {}: ", refusal.number(), refusal.place())));
    assert!(!refusal.reason().contains("does not know"));
    (refusal.number(), refusal.place())
}

#[test]
fn each_refusal() {
    assert_eq!(refused("(open 1)", 16, 0, &[99], 5, 200), (1, 3));
    assert_eq!(refused("(bare 1)", 0, 1, &[1, 0], 1, 0), (1, 2));
    assert_eq!(refused("", 0, 1, &[1, 0], 1, 0), (1, 1));
    assert_eq!(refused("(order 64 (0 1) (0 32) (3 0))", 16, 0, &[99], 5, 200), (2, 8));
    assert_eq!(refused(ORDER, 16, 0, &[1], 1, 200), (9, 0));
    assert_eq!(refused(ORDER, 0, 0, &[1, 32], 2, 200), (9, 0));
    assert_eq!(refused(ORDER, 0, 0, &[1], 2, 200), (9, 0));
    assert_eq!(refused(ORDER, 1, 0, &[], 0, 200), (6, 200));
    assert_eq!(refused(ORDER, 1, 6, &[], 0, 0), (15, 0));
    assert_eq!(refused(NOTICE, 1, 0b0100, &[1], 1, 2), (15, 0));
    assert_eq!(refused(NOTICE, 1, 0b0001, &[1], 1, 2), (15, 0));
    assert_eq!(refused(ORDER, 1, 1, &[1], 1, 0), (16, 0));
    assert_eq!(refused(ORDER, 0, 1, &[2], 1, 0), (16, 0));
    assert_eq!(refused(ORDER, 0, 1, &[1], 0, 0), (16, 0));
    assert_eq!(refused(NOTICE, 1, 0b0101, &[1], 0, 2), (16, 0));
    assert_eq!(refused(ORDER, 0, 1, &[1], 1, 0), (17, 0));
}

// The example of docs/MOVES.md.
#[test]
fn one_lane_after_another() {
    let mut buffer = [1, 9, 9, 9];
    let (mut mode, mut phase, mut len) = (0, 7, 1);
    let mut moves = |line: &str, number: u8| match move_lane(line, mode, phase, &mut buffer, len, number) {
        Ok(moved) => {
            (mode, phase, len) = (moved.mode, moved.phase, moved.len);
            Ok(((mode, phase, len), buffer))
        }
        Err(refusal) => Err((refusal.number(), refusal.place())),
    };
    let last = "(order 3 (0 1) (2) (1 4))";
    assert_eq!(moves(ORDER, 0), Ok(((0, 7, 2), [2, 1, 9, 9])));
    assert_eq!(moves("(order 1 (0 2) (1) (2 1))", 1), Ok(((1, 7, 1), [1, 1, 9, 9])));
    assert_eq!(moves(NOTICE, 2), Ok(((0, 14, 1), [1, 1, 9, 9])));
    assert_eq!(moves(ORDER, 0), Err((15, 0)));
    assert_eq!(moves(last, 5), Err((6, 5)));
    assert_eq!(moves(last, 3), Ok(((2, 14, 0), [1, 1, 9, 9])));
    assert_eq!(moves("(bare 2)", 3), Err((1, 2)));
}

#[test]
fn bytes_behind_the_lane_stay() {
    let mut buffer = [2, 1, 7, 7];
    let moved = move_lane("(order 1 (0 2) (1) (2 1))", 0, 0b10, &mut buffer, 2, 1);
    assert_eq!(moved, Ok(Moved { mode: 1, phase: 0b10, len: 1 }));
    assert_eq!(buffer, [1, 1, 7, 7]);
}

#[test]
fn a_wagon_behind_the_lane_may_be_any_byte() {
    let mut buffer = [1, 255];
    let moved = move_lane("(order 0 (0 1) (3 31) (3 0))", 0, 1, &mut buffer, 1, 0);
    assert_eq!(moved, Ok(Moved { mode: 3, phase: 1, len: 1 }));
    assert_eq!(buffer, [31, 255]);
}

#[test]
fn a_notice_may_withdraw_itself_and_renew_a_number() {
    let mut buffer = [4];
    let withdraws_itself = move_lane("(notice 5 0 1 (5 6) (0 0))", 0, 1 << 5, &mut buffer, 1, 5);
    assert_eq!(withdraws_itself, Ok(Moved { mode: 1, phase: 1 << 6, len: 1 }));
    let renews = move_lane("(notice 5 0 1 (7 7) (0 0))", 0, 1 << 5 | 1 << 7, &mut buffer, 1, 5);
    assert_eq!(renews, Ok(Moved { mode: 1, phase: 1 << 5 | 1 << 7, len: 1 }));
    assert_eq!(buffer, [4]);
}
