//! Writes the guard file of a list of numbers, and asks the desk about it.
use guarddesk::{decide, write, Answer, Names, Refusal};

fn main() -> Result<(), Refusal> {
    // Type 0: numbers; type 1: nil, or cons of a type 0 and a type 1.
    let types = [2, 0, 2, 0, 2, 0, 1];
    // Term 0: a variable of type 1; term 1: its field 0 as a cons; term 2: a time tag, five minutes before 0 in nanoseconds.
    let terms = [3, 0, 1, 3, 0, 1, 0, 1, 0, -300_000_000_000];
    // One line: term 1 equals term 2.
    let lines = [1, 0, 1, 2];
    let names = Names {
        variants: &[&[], &["nil", "cons"]],
    };

    let file = write(&[&types[..], &terms, &lines].concat())?;
    println!("{file:02x?}");
    let answer = decide(&file, 1000);
    print!("{answer}");
    if let Answer::Sat { messages, .. } = answer {
        for (term, message) in messages.terms().enumerate() {
            println!("term {term}: {}", message.with_names(&names));
        }
    }

    // A count of lines, and nothing behind it.
    if let Err(refusal) = write(&[&types[..], &terms, &lines[..1]].concat()) {
        println!("{refusal}");
    }
    Ok(())
}
