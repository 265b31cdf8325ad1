//! The flight loader's call, with a quarter of the memory: case c of document 01, a list x that equals its own tail; then a guard of
//! nine terms, which only the desk's own call takes.
use guarddesk::{decide, load, Answer, Names};

fn main() {
    // Type 0: numbers; type 1: nil, or cons of a type 0 and a type 1.
    let types = [2, 0, 2, 0, 2, 0, 1];
    // Term 0: a variable of type 1; term 1: its field 1 as a cons.
    let terms = [2, 0, 1, 3, 0, 1, 1];
    // One line: term 0 equals term 1.
    let lines = [1, 0, 0, 1];
    let names = Names {
        variants: &[&[], &["nil", "cons"]],
    };
    let answer = load(&[&types[..], &terms, &lines].concat(), 3);
    print!("{answer}");
    if let Answer::Sat { messages, .. } = answer {
        for (term, message) in messages.terms().enumerate() {
            println!("term {term}: {}", message.with_names(&names));
        }
    }

    // Numbers, and nine variables of that type.
    let nine = [&[1, 0, 9][..], &[0, 0].repeat(9), &[0]].concat();
    print!("{}", load(&nine, 3));
    let desk = decide(&nine, 3).to_string();
    println!("{} from the desk", desk.lines().next().unwrap_or_default());
}
