//! The console by the model: what it has to answer to a script of requests, written from the page of its language.
//!
//!     console answers SCRIPT            prints the answers
//!     console compare SCRIPT ANSWERS    compares the console's answers with them, and prints how many requests there were
//!     console examples HELP             finds each request in the help that the console prints, and prints the examples

mod model;
#[path = "console/requests.rs"]
mod requests;
#[path = "console/table.rs"]
mod table;
#[path = "console/words.rs"]
mod words;

use requests::{answer, name, usages, Said};

/// How many differences are told.
const MOST_TOLD: usize = 10;

fn fail(why: &str) -> ! {
    println!("tests/console: FAILED: {why}");
    std::process::exit(1)
}

fn file(path: &str) -> Vec<u8> {
    std::fs::read(path).unwrap_or_else(|error| fail(&format!("{path}: {error}")))
}

/// The lines of a text, the last perhaps without its line feed.
fn lines(text: &[u8]) -> Vec<&[u8]> {
    let mut lines: Vec<&[u8]> = text.split(|character| *character == b'\n').collect();
    if lines.last() == Some(&&b""[..]) {
        lines.pop();
    }
    lines
}

/// The lines of a script that are answered, each with its number in the script and its answer.
fn answered(script: &[u8]) -> Vec<(usize, &[u8], String)> {
    let mut all = Vec::new();
    for (number, line) in (1..).zip(lines(script)) {
        match answer(line) {
            Said::Nothing => (),
            Said::Text(text) => all.push((number, line, text)),
            Said::Help => fail("the words of help are not the model's: no script asks for them"),
        }
    }
    all
}

/// A line as it is told: a long one without its middle.
fn told(line: &[u8]) -> String {
    let text = String::from_utf8_lossy(line);
    let characters: Vec<char> = text.chars().collect();
    if characters.len() <= 400 {
        return text.escape_debug().to_string();
    }
    let part = |part: &[char]| part.iter().collect::<String>().escape_debug().to_string();
    format!("{} .. {} ({} bytes)", part(&characters[..250]), part(&characters[characters.len() - 100..]), line.len())
}

fn compare(path: &str, script: &[u8], answers: &[u8]) {
    if answers.last().map_or(false, |last| *last != b'\n') {
        fail(&format!("{path}: the last answer has no line feed"));
    }
    let all = answered(script);
    let mut answers = lines(answers).into_iter();
    let mut differences = 0;
    for (number, line, text) in &all {
        for expected in text.split('\n') {
            let got = answers.next();
            if got == Some(expected.as_bytes()) {
                continue;
            }
            println!("{path}, line {number}: {}", told(line));
            println!("  the model answers: {}", told(expected.as_bytes()));
            println!("  the console answers: {}", got.map_or("nothing".to_string(), told));
            differences += 1;
            if differences == MOST_TOLD || got.is_none() {
                fail(&format!("{path}: {differences} differences, and perhaps more"));
            }
        }
    }
    if let Some(more) = answers.next() {
        println!("{path}: after the last request the console answers: {}", told(more));
        differences += 1;
    }
    if differences > 0 {
        fail(&format!("{path}: {differences} differences"));
    }
    println!("{}", all.len());
}

/// The examples in a help text: in the line of a request, after its usage, what follows the last two blanks before its name.
fn examples(help: &str) {
    for usage in usages() {
        let indented = format!("    {usage}  ");
        let line = help.lines().find(|line| line.starts_with(&indented)).unwrap_or_else(|| fail(&format!("help has no line for {usage}")));
        let at = line.rfind(&format!("  {}", name(usage))).filter(|at| *at + 2 >= indented.len());
        match at {
            Some(at) => println!("{}", &line[at + 2..]),
            None => fail(&format!("help has no example for {usage}")),
        }
    }
    if !help.lines().any(|line| line == "    help" || line.starts_with("    help  ")) {
        fail("help has no line for help");
    }
}

fn main() {
    let arguments: Vec<String> = std::env::args().skip(1).collect();
    let arguments: Vec<&str> = arguments.iter().map(|argument| &argument[..]).collect();
    match arguments[..] {
        ["answers", script] => {
            for (_, _, text) in answered(&file(script)) {
                println!("{text}");
            }
        }
        ["compare", script, answers] => compare(script, &file(script), &file(answers)),
        ["examples", help] => examples(&String::from_utf8_lossy(&file(help))),
        _ => fail("answers SCRIPT, compare SCRIPT ANSWERS and examples HELP are its uses"),
    }
}
