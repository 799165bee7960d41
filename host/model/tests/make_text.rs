//! Random text is what it says.

use model::make;
use model::make_text;
use model::random::Random;
use model::refusal::Refusal;
use model::text;

#[test]
fn hex_is_read_back_and_spoiled_text_is_refused() {
    let mut random = Random::new(1);
    for turn in 0..3_000 {
        let bytes = make::some(&mut random).to_bytes();
        let mut hex = make_text::hex(&mut random, turn, &bytes);
        assert_eq!(text::decode(&hex), Ok(bytes));
        make_text::spoil(&mut random, &mut hex);
        assert_eq!(text::decode(&hex), Err(Refusal::Bytes));
    }
}
