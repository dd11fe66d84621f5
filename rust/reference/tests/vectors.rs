//! The card's questions and the answers they must get.

use reference::console::Console;

#[test]
fn every_question_gets_its_answer() {
    let root = concat!(env!("CARGO_MANIFEST_DIR"), "/../../crates/ask/");
    let questions = std::fs::read(format!("{root}stdin")).unwrap();
    let answers = std::fs::read_to_string(format!("{root}stdout")).unwrap();
    let mut expected = answers.lines();
    let mut console = Console::default();
    for (at, line) in questions.split(|byte| *byte == b'\n').enumerate() {
        if let Some(answer) = console.answer(line) {
            assert_eq!(Some(answer.as_str()), expected.next(), "line {}", at + 1);
        }
    }
    assert_eq!(expected.next(), None);
}
