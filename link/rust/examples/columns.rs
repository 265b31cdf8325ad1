//! Stores a guard file by column, as slow memory keeps it, gives it back and asks the desk about it; then bytes that were damaged there.
use guarddesk::{decide, restore, store, StoreRefusal};

fn main() -> Result<(), StoreRefusal> {
    // Type 0: numbers; type 1: nil, or cons of a type 0 and a type 1. Terms: a list x, its field 0 as a cons, 3 and 4; field 0 is 3,
    // and isn't 4.
    let file = [
        2, 0, 2, 0, 2, 0, 1, 4, 0, 1, 3, 0, 1, 0, 1, 0, 6, 1, 0, 8, 2, 0, 1, 2, 1, 1, 3,
    ];
    let mut stored = store(&file)?;
    println!("file   {file:02x?}");
    println!("stored {stored:02x?}");
    let back = restore(&stored)?;
    println!("same bytes: {}", back == file);
    let answer = decide(&back, 1000).to_string();
    println!("{}", answer.lines().next().unwrap_or_default());

    // The kind of the last term, which stands behind the other kinds.
    stored[11] = 9;
    if let Err(refusal) = restore(&stored) {
        println!("{refusal}");
    }
    Ok(())
}
