//! `lafkuno grounds`

use super::{mistake, print, Command};
use lafkuno::Ground;

pub const COMMAND: Command = Command { word: "grounds", usage: "lafkuno grounds                           the grounds of refusal", run };

fn run(words: &[&str]) -> u8 {
    if let Some(word) = words.first() {
        return mistake(format_args!("grounds: {word} is not asked for"));
    }
    let line = |g: &Ground| format!("{:2}  {}\n    caused by {}\n", g.number(), g.meaning(), g.cause());
    print(&Ground::ALL.iter().map(line).collect::<String>())
}
