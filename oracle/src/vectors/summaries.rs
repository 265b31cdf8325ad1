//! Request #114: files with their guards' summaries, made anew and with a line
//! more.

use super::{hex, parse_lines, unhex, Vector};
use crate::guard::Limits;
use crate::read::{read, Question};
use crate::summary::{add_line, summarize, Summary, NUMBERS};

/// Of the vectors that are accepted each so many'th is kept, and of the others.
const ACCEPTED: usize = 24;
const REFUSED: usize = 40;

/// A budget that settles most variants, and one that leaves many unsettled.
const BUDGETS: [u32; 2] = [60, 2];

/// The bytes of a line of an accepted file: its kind and two names.
const LINE: usize = 3;

const HEADER: &str = "\
# Guard files with their summaries, written by `oracle summaries`.
# NAME, BUDGET, OLD, HEX, LINE and ANSWER, separated by single tabs. LINE is `anew` where the
# summary is made anew, else the bytes of the added line, - if empty. OLD is the summary before
# the call and ANSWER the one after it, four hexadecimal digits for each number up to the last
# that isn't 0, - if all are; or ANSWER is REFUSED and a number, and OLD is what stays.
";

/// A call with its answer.
#[derive(Clone, Debug, PartialEq, Eq)]
pub struct Call {
    pub name: String,
    pub budget: u32,
    pub old: Summary,
    pub file: Vec<u8>,
    /// The added line; none where the summary is made anew.
    pub line: Option<Vec<u8>>,
    pub answer: Result<Summary, u8>,
}

struct Set(Vec<Call>);

impl Set {
    fn add(&mut self, name: String, budget: u32, old: Summary, file: &[u8], line: Option<&[u8]>) {
        let answer = match line {
            None => summarize(file, budget),
            Some(line) => add_line(file, line, budget, &old),
        };
        self.0.push(Call {
            name,
            budget,
            old,
            file: file.to_vec(),
            line: line.map(<[u8]>::to_vec),
            answer: answer.map_err(Question::number),
        });
    }
}

/// All calls, with files of these vectors.
pub fn all(vectors: &[Vector]) -> Vec<Call> {
    let mut set = Set(Vec::new());
    let (accepted, refused): (Vec<&Vector>, Vec<&Vector>) = vectors
        .iter()
        .partition(|vector| read(&vector.file, Limits::BASE).is_ok());
    for vector in accepted.into_iter().step_by(ACCEPTED) {
        taken(&mut set, vector);
    }
    for vector in refused.into_iter().step_by(REFUSED) {
        // A line that would be refused too is asked after the file.
        set.add(
            format!("{}-anew", vector.name),
            1,
            [5; NUMBERS],
            &vector.file,
            None,
        );
        set.add(
            format!("{}-line", vector.name),
            1,
            [5; NUMBERS],
            &vector.file,
            Some(&[4]),
        );
    }
    set.0
}

/// An accepted file: made anew, and with its last line added to the others.
fn taken(set: &mut Set, Vector { name, file, .. }: &Vector) {
    for budget in BUDGETS {
        set.add(format!("{name}-anew"), budget, [5; NUMBERS], file, None);
    }
    let lines = read(file, Limits::BASE).expect("accepted").lines.len();
    if lines == 0 {
        return;
    }
    let (front, line) = file.split_at(file.len() - LINE);
    let mut front = front.to_vec();
    front[file.len() - LINE * lines - 1] -= 1;
    let before = summarize(&front, BUDGETS[0]).expect("accepted");
    for budget in BUDGETS {
        set.add(format!("{name}-added"), budget, before, &front, Some(line));
    }
    // A summary that isn't true: every third number is all ones.
    let wrong = std::array::from_fn(|i| if i % 3 == 0 { u16::MAX } else { 0 });
    set.add(
        format!("{name}-wrong"),
        BUDGETS[1],
        wrong,
        &front,
        Some(line),
    );
    // Lines that get a no, and one that is added to all of them.
    set.add(
        format!("{name}-cut"),
        1,
        before,
        &front,
        Some(&line[..LINE - 1]),
    );
    set.add(
        format!("{name}-longer"),
        1,
        before,
        &front,
        Some(&[line, &[0]].concat()),
    );
    set.add(
        format!("{name}-kind"),
        1,
        before,
        &front,
        Some(&[4, line[1], line[2]]),
    );
    set.add(
        format!("{name}-name"),
        1,
        before,
        &front,
        Some(&[line[0], 24, line[2]]),
    );
    set.add(
        format!("{name}-again"),
        BUDGETS[1],
        before,
        file,
        Some(line),
    );
}

fn masks(summary: &Summary) -> String {
    let many = NUMBERS - summary.iter().rev().take_while(|mask| **mask == 0).count();
    if many == 0 {
        return "-".to_string();
    }
    summary[..many]
        .iter()
        .map(|mask| format!("{mask:04x}"))
        .collect()
}

/// The calls as the text of `summaries.txt`.
pub fn text(calls: &[Call]) -> String {
    let mut text = HEADER.to_string();
    for call in calls {
        let line = call.line.as_deref().map_or("anew".to_string(), hex);
        let answer = match &call.answer {
            Ok(summary) => masks(summary),
            Err(question) => format!("REFUSED {question}"),
        };
        text += &format!(
            "{}\t{}\t{}\t{}\t{line}\t{answer}\n",
            call.name,
            call.budget,
            masks(&call.old),
            hex(&call.file)
        );
    }
    text
}

/// Reads such a text.
pub fn parse(text: &str) -> Result<Vec<Call>, String> {
    parse_lines(text, "a summary", parse_line)
}

fn parse_line(line: &str) -> Option<Call> {
    let columns: Vec<&str> = line.split('\t').collect();
    let [name, budget, old, file, line, answer] = columns[..] else {
        return None;
    };
    Some(Call {
        name: name.to_string(),
        budget: budget.parse().ok()?,
        old: parse_masks(old)?,
        file: unhex(file)?,
        line: match line {
            "anew" => None,
            line => Some(unhex(line)?),
        },
        answer: match answer.strip_prefix("REFUSED ") {
            Some(question) => Err(question.parse().ok()?),
            None => Ok(parse_masks(answer)?),
        },
    })
}

fn parse_masks(text: &str) -> Option<Summary> {
    let bytes = unhex(text)?;
    let mut summary = [0; NUMBERS];
    if bytes.len() % 2 != 0 || bytes.len() > 2 * NUMBERS {
        return None;
    }
    for (mask, pair) in summary.iter_mut().zip(bytes.chunks_exact(2)) {
        *mask = u16::from_be_bytes([pair[0], pair[1]]);
    }
    Some(summary)
}
