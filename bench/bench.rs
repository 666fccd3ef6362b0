// Times the lexer, the parser and the writing of expressions over files, beside a program that does the same with the
// original, and prints the table of README.md: bench [--original PROGRAM] FILE..
//
// For each file the two programs are run in turn, ROUNDS times, and each times RUNS runs; the shortest of all counts.
// They are run as they are, and once more with the memory kept that a run gives back, so that the next run has no page
// faults.
use std::hint::black_box;
use std::os::unix::process::CommandExt;
use std::process::{Child, Command, Stdio};
use std::time::Instant;

const ROUNDS: usize = 10;
const RUNS: usize = 3;
// What has the C library keep memory.
const KEPT: &str = "glibc.malloc.trim_threshold=1000000000:glibc.malloc.mmap_threshold=1000000000";

unsafe extern "C" {
    fn tera_bench_tokens(bytes: *const u8, len: usize) -> u64;
    fn tera_bench_nodes(bytes: *const u8, len: usize) -> u64;
    fn tera_bench_written(bytes: *const u8, len: usize) -> u64;
    fn tera_bench_text(bytes: *const u8, len: usize) -> u64;
    fn wait4(pid: i32, status: *mut i32, options: i32, usage: *mut [i64; 18]) -> i32;
}

type Function = unsafe extern "C" fn(*const u8, usize) -> u64;

// The shortest times in nanoseconds, as a program writes them: to see that the file is a text, which the original's
// program leaves out, to count its tokens, to parse it, and to parse it and write its expressions.
#[derive(Clone, Copy, Default)]
struct Times {
    text: Option<f64>,
    tokens: Option<f64>,
    parse: Option<f64>,
    written: Option<f64>,
}

impl Times {
    fn shorter(self, other: Times) -> Times {
        let least = |a: Option<f64>, b: Option<f64>| a.into_iter().chain(b).reduce(f64::min);
        Times {
            text: least(self.text, other.text),
            tokens: least(self.tokens, other.tokens),
            parse: least(self.parse, other.parse),
            written: least(self.written, other.written),
        }
    }

    // Each time without that of what it does first.
    fn alone(self) -> Times {
        let without = |whole: Option<f64>, part: Option<f64>| whole.map(|whole| whole - part.unwrap_or(0.0));
        Times {
            text: self.text,
            tokens: without(self.tokens, self.text),
            parse: without(self.parse, self.text),
            written: without(self.written, self.parse),
        }
    }
}

fn call(function: Function, source: &[u8]) -> u64 {
    unsafe { function(source.as_ptr(), source.len()) }
}

fn time(what: &str, runs: usize, function: Function, source: &[u8]) {
    let mut best = f64::MAX;
    for _ in 0..runs {
        let start = Instant::now();
        black_box(call(function, source));
        best = best.min(start.elapsed().as_secs_f64());
    }
    println!("{what}: best {:.0} ns", best * 1e9);
}

// Times this process, and writes the times as the original's program does. With no runs it parses once.
fn time_here(runs: usize, name: &str) {
    let source = std::fs::read(name).expect("a file");
    println!("{} bytes, {} nodes at the top", source.len(), call(tera_bench_nodes, &source));
    if runs == 0 {
        return;
    }
    time("text", runs, tera_bench_text, &source);
    time("tokenize", runs, tera_bench_tokens, &source);
    time("parse (with drop of the tree)", runs, tera_bench_nodes, &source);
    if call(tera_bench_written, &source) > 0 {
        time("written", runs, tera_bench_written, &source);
    }
}

// Starts a program. It is forked, since one that shares this one's memory until it runs would have its peak too.
fn start(program: &str, runs: usize, file: &str, keeps: bool) -> Child {
    let mut command = Command::new(program);
    command.args(["--bench", &runs.to_string(), file]).stdout(Stdio::piped());
    if keeps {
        command.env("GLIBC_TUNABLES", KEPT);
    }
    unsafe { command.pre_exec(|| Ok(())) };
    command.spawn().expect("a program that starts")
}

// Reads what a program wrote of its times.
fn times(program: &str, file: &str, keeps: bool) -> Times {
    let output = start(program, RUNS, file, keeps).wait_with_output().expect("a program that ends");
    let text = String::from_utf8(output.stdout).expect("a text");
    let best = |word: &str| {
        let line = text.lines().find(|line| line.starts_with(word))?;
        line.split("best ").nth(1)?.split(' ').next()?.parse().ok()
    };
    let is_refused = text.lines().next().is_some_and(|line| line.ends_with("refused"));
    Times {
        text: best("text"),
        tokens: best("tokenize"),
        parse: best("parse (").filter(|_| !is_refused),
        written: best("written"),
    }
}

// The most memory that a program had while it parsed a file once, in bytes.
fn peak(program: &str, file: &str) -> f64 {
    let child = start(program, 0, file, false);
    let (mut status, mut usage) = (0, [0; 18]);
    let ended = unsafe { wait4(child.id() as i32, &mut status, 0, &mut usage) };
    assert!(ended > 0 && status == 0, "a program that ends well");
    usage[4] as f64 * 1024.0
}

fn cell(value: Option<f64>, unit: f64) -> String {
    value.map_or(String::new(), |value| format!("{:.1}", value / unit))
}

fn pair(ours: Option<f64>, theirs: Option<f64>) -> String {
    let ratio = ours.zip(theirs).map_or(String::new(), |(ours, theirs)| format!("{:.2}", theirs / ours));
    format!("{} | {} | {ratio}", cell(ours, 1e6), cell(theirs, 1e6))
}

// Both programs' times of a file.
fn measured(file: &str, here: &str, original: Option<&str>, keeps: bool) -> (Times, Times) {
    let (mut ours, mut theirs) = (Times::default(), Times::default());
    for _ in 0..ROUNDS {
        ours = ours.shorter(times(here, file, keeps));
        theirs = original.map_or(theirs, |program| theirs.shorter(times(program, file, keeps)));
    }
    if original.is_some() && theirs.parse.is_none() {
        ours.parse = None;
    }
    (ours.alone(), theirs.alone())
}

// The row of a file: the peaks are those above the ones of an empty file.
fn row(file: &str, here: &str, original: Option<&str>) -> String {
    let name = file.rsplit('/').next().unwrap_or(file);
    let (ours, theirs) = measured(file, here, original, false);
    let (tokens, parse) = (pair(ours.tokens, theirs.tokens), pair(ours.parse, theirs.parse));
    let (ours_kept, theirs_kept) = measured(file, here, original, true);
    let kept = pair(ours_kept.parse, theirs_kept.parse);
    let above = |program: &str| peak(program, file) - peak(program, "/dev/null");
    let memory = format!("{} | {}", cell(Some(above(here)), 1e6), cell(original.map(above), 1e6));
    format!("| `{name}` | {tokens} | {parse} | {kept} | {memory} | {} |", cell(ours_kept.written, 1e6))
}

fn main() {
    let words: Vec<String> = std::env::args().collect();
    let here = words[0].as_str();
    let (original, files) = match &words[1..] {
        [flag, runs, file] if flag == "--bench" => {
            let (runs, file) = (runs.parse().expect("a number"), file.clone());
            // In a thread of its own, as the original's program does, since memory is taken there in another way.
            std::thread::spawn(move || time_here(runs, &file)).join().expect("a thread that ends");
            return;
        }
        [flag, program, files @ ..] if flag == "--original" => (Some(program.as_str()), files),
        files => (None, files),
    };
    let pairs = "| Tokens | Original | Ratio | Parse | Original | Ratio | Kept | Original | Ratio ";
    println!("| Input {pairs}| Peak | Original | Written |");
    println!("|{}", "---|".repeat(13));
    for file in files {
        println!("{}", row(file, here, original));
    }
}
