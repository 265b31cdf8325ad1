//! Merges the guard of a procedure with those of two procedures inside it, and asks the desk whether both can hold.
use guarddesk::{decide, merge, Answer, MergeRefusal, Names};

fn main() -> Result<(), MergeRefusal> {
    // Type 0: numbers; type 1: nil, or cons of a type 0 and a type 1.
    let types = [2, 0, 2, 0, 2, 0, 1];
    // A list whose field 0 as a cons is 3.
    let outer = [3, 0, 1, 3, 0, 1, 0, 1, 0, 6, 1, 0, 1, 2];
    // The same list, being the first variable here too: its field 1 as a cons isn't nil.
    let longer = [3, 0, 1, 3, 0, 1, 1, 2, 1, 0, 1, 1, 1, 2];
    // The same list, whose field 0 as a cons is 4.
    let four = [3, 0, 1, 3, 0, 1, 0, 1, 0, 8, 1, 0, 1, 2];
    let names = Names {
        variants: &[&[], &["nil", "cons"]],
    };

    let file = |rest: &[u8]| [&types[..], rest].concat();
    for inner in [longer, four] {
        let both = merge(&file(&outer), &file(&inner))?;
        println!("{both:02x?}");
        match decide(&both, 1000) {
            Answer::Sat { messages, .. } => {
                let list = messages.term(0).expect("a message for each term");
                println!("both hold for {}", list.with_names(&names));
            }
            answer => print!("{answer}"),
        }
    }

    // Without types, terms and lines: a guard, but not with these types.
    if let Err(refusal) = merge(&file(&outer), &[0, 0, 0]) {
        println!("{refusal}");
    }
    Ok(())
}
