//! Boards that rest end alike by every order of moves.

use reference::board::{Bank, Board};
use reference::clear;
use reference::examine::end_by_other_choices;
use reference::generate::sample;
use reference::numbers::Kind;
use reference::random::Random;
use reference::runs;

#[test]
fn resting_boards_end_alike() {
    let mut rested = 0;
    for index in 0..600 {
        let mut random = Random::of_text(99, index);
        let text = sample(&mut random).text;
        for kind in [Kind::Binary, Kind::Decimal] {
            let Ok(program) = clear(&text, kind) else { continue };
            let bank: Bank = std::array::from_fn(|port| (0..port as u32 * 7).collect());
            let mut board = Board::power(&program, kind, bank.clone());
            if runs::run(&mut board, 3_000, |_| 0, |_, _| {}) {
                rested += 1;
                for _ in 0..2 {
                    let other = end_by_other_choices(&board, &program, bank.clone(), &mut random);
                    assert_eq!(other, None, "{}", String::from_utf8_lossy(&text));
                }
            }
        }
    }
    assert!(rested > 300, "only {rested} boards came to rest");
}
