//! Explains case h of document 01, three flags that all differ: prints the branches of its search, and checks their record.
use guarddesk::{check, explain, Answer, Question};

fn main() -> Result<(), Question> {
    // Type 0: two variants without fields.
    let types = [1, 2, 0, 0];
    // Terms 0, 1 and 2: variables of type 0.
    let terms = [3, 0, 0, 0, 0, 0, 0];
    // Three lines: each two of them are unequal.
    let lines = [3, 1, 0, 1, 1, 0, 2, 1, 1, 2];
    let file = [&types[..], &terms, &lines].concat();

    let explanation = explain(&file, 1000);
    print!("{}", explanation.answer);
    if let Answer::Unsat {
        first_splits,
        second_splits,
        ..
    } = explanation.answer
    {
        println!("splits: {first_splits} of the first kind, {second_splits} of the second");
    }
    if let Some(refutation) = explanation.refutation {
        print!("{refutation}");
        check(&file, refutation.bytes())?;
        println!("{} bytes, accepted", refutation.bytes().len());
    }
    Ok(())
}
