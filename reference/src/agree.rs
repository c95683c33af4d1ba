//! Comparing two programs' answers to the same questions.

/// How many differences are shown, and how much of each line.
const SHOWN: usize = 5;
const SHOWN_CHARACTERS: usize = 200;

/// What the comparison says, and whether all agree.
pub struct Agreement {
    pub report: String,
    pub all: bool,
}

/// Compares the desk's answers with the reference's, line by line. A line that the desk does not
/// give agrees with nothing, and lines beyond the last question are said to be too many.
pub fn agree(questions: &str, desk: &str, reference: &str) -> Agreement {
    let mut desk = desk.split_terminator('\n');
    let mut report = String::new();
    let (mut agreeing, mut count) = (0, 0);
    let reference = reference.split_terminator('\n');
    for (question, right) in questions.split_terminator('\n').zip(reference) {
        count += 1;
        let given = desk.next().unwrap_or("(no line)");
        if given == right {
            agreeing += 1;
        } else if count - agreeing <= SHOWN {
            report += &difference(count, question, given, right);
        }
    }
    let beyond = desk.count();
    if beyond > 0 {
        report += &format!("the desk gives {beyond} lines too many\n");
    }
    report += &format!("{agreeing} of {count} agree\n");
    let all = agreeing == count && beyond == 0;
    Agreement { report, all }
}

fn difference(line: usize, question: &str, given: &str, right: &str) -> String {
    // Escaped, since a flawed line may hold any character.
    let shown = |text: &str| -> String {
        let start = text.chars().take(SHOWN_CHARACTERS);
        start.flat_map(char::escape_default).collect()
    };
    format!(
        "line {line}: {}\n  desk:      {}\n  reference: {}\n",
        shown(question),
        shown(given),
        shown(right)
    )
}
