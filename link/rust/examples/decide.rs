//! Decides case c of document 01, a list x that equals its own tail, and shows the message of each of its two terms.
use guarddesk::{decide, Answer, Names};

fn main() {
    // Type 0: numbers; type 1: nil, or cons of a type 0 and a type 1.
    let types = [2, 0, 2, 0, 2, 0, 1];
    // Term 0: a variable of type 1; term 1: its field 1 as a cons.
    let terms = [2, 0, 1, 3, 0, 1, 1];
    // One line: term 0 equals term 1.
    let lines = [1, 0, 0, 1];
    let names = Names {
        variants: &[&[], &["nil", "cons"]],
    };

    let answer = decide(&[&types[..], &terms, &lines].concat(), 3);
    print!("{answer}");
    if let Answer::Sat {
        first_splits,
        second_splits,
        messages,
        ..
    } = answer
    {
        println!("splits: {first_splits} of the first kind, {second_splits} of the second");
        for (term, message) in messages.terms().enumerate() {
            println!("term {term}: {}", message.with_names(&names));
        }
    }
}
