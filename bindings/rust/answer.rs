//! Prints the tree of each template, with --json as JSON, or its fault: answer [--json] [--markers TWELVE] FILE..
use std::io::Write;
use std::process::ExitCode;
use tera_parser::{Error, Fault, Source};

fn fault_text(fault: &Fault) -> String {
    let p = &fault.span;
    let mut text = format!(
        "syntax error at {}:{} ({}..{}): {}\nends at {}:{}\n",
        p.start_line, p.start_col, p.start, p.end, fault.message, p.end_line, p.end_col
    );
    for note in &fault.notes {
        let (label, p) = (&note.label, &note.span);
        text += &format!(
            "note {label} at {}:{}-{}:{} {}..{}\n",
            p.start_line, p.start_col, p.end_line, p.end_col, p.start, p.end
        );
    }
    text
}

// The answer to one file: 0 for a tree, 1 for a fault, 2 where neither could be told.
fn answer(name: &str, markers: Option<&str>, as_json: bool) -> (u8, String) {
    let Ok(bytes) = std::fs::read(name) else {
        eprintln!("{name}: cannot be read");
        return (2, String::new());
    };
    let mut source = Source::new(&bytes);
    source.markers = markers.unwrap_or(source.markers);
    let told = if as_json { source.json().map(|json| json + "\n") } else { source.tree() };
    match told {
        Ok(text) => (0, text),
        Err(Error::Fault(fault)) => (1, fault_text(&fault)),
        Err(error) => {
            eprintln!("{name}: {error}");
            (2, String::new())
        }
    }
}

fn main() -> ExitCode {
    let words: Vec<String> = std::env::args().skip(1).collect();
    let as_json = words.first().is_some_and(|word| word == "--json");
    let (markers, files) = match &words[usize::from(as_json)..] {
        [flag, markers, files @ ..] if flag == "--markers" => (Some(markers.as_str()), files),
        files => (None, files),
    };
    let mut worst = 0;
    let mut out = std::io::stdout().lock();
    for name in files {
        let (came, text) = answer(name, markers, as_json);
        if write!(out, "== {name}\n{text}").is_err() {
            return ExitCode::from(2);
        }
        worst = worst.max(came);
    }
    ExitCode::from(worst)
}
