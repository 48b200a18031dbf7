//! Prints what tests/calls/words.c prints, by the Rust module.
use elderflute::Refusal;

fn main() {
    for number in 1..=Refusal::Room.number() {
        println!("{number} {}", Refusal::of(number).expect("a refusal"));
    }
    println!("{}\n{} {}", Refusal::of(u32::MAX).expect("a refusal"), elderflute::VERSION, elderflute::version());
    assert_eq!(elderflute::version(), elderflute::VERSION_NUMBER);
}
