//! `crate-symq GRAPH [--swc-edges] [--stack MB]`

mod answer;
mod load;
mod query;
mod table;
mod writer;

use std::io::BufRead;
use std::io::Write;
use std::panic::AssertUnwindSafe;
use std::panic::catch_unwind;

use deno_graph::symbols::RootSymbol;

/// Megabytes left under the limit, for the last step.
const SPARE: usize = 16;
const BLOCK: usize = 1 << 16;
const USAGE: &str = "usage: crate-symq GRAPH [--swc-edges] [--stack MB]";
const PANIC: &str = r#"{"fault":"panic"}"#;

struct Arguments {
    graph: String,
    options: load::Options,
    /// Megabytes of stack after which a query's recursion counts as endless.
    stack: usize,
}

fn arguments() -> Option<Arguments> {
    let mut words = std::env::args().skip(1);
    let mut found = Arguments {
        graph: words.next()?,
        options: load::Options { swc_edges: false },
        stack: 256,
    };
    while let Some(word) = words.next() {
        match word.as_str() {
            "--swc-edges" => found.options.swc_edges = true,
            "--stack" => found.stack = words.next()?.parse().ok()?,
            _ => return None,
        }
    }
    Some(found)
}

/// Answers line by line. Pending answers are written when all lines that were read are answered.
fn serve(loaded: &load::Loaded) -> std::io::Result<()> {
    let root = RootSymbol::new(&loaded.graph, &loaded.parser);
    let mut server = answer::Server::default();
    let mut out = std::io::BufWriter::with_capacity(BLOCK, std::io::stdout().lock());
    let mut input = std::io::BufReader::with_capacity(BLOCK, std::io::stdin().lock());
    let mut line = Vec::new();
    loop {
        if input.buffer().is_empty() {
            out.flush()?;
        }
        line.clear();
        if input.read_until(b'\n', &mut line)? == 0 {
            return out.flush();
        }
        let asked = line.strip_suffix(b"\n").unwrap_or(&line);
        let answer = match std::str::from_utf8(asked) {
            Ok(asked) => catch_unwind(AssertUnwindSafe(|| server.answer(&root, asked)))
                .unwrap_or_else(|_| PANIC.to_string()),
            Err(_) => answer::BAD_QUERY.to_string(),
        };
        writeln!(out, "{answer}")?;
    }
}

fn run(arguments: Arguments) -> Result<(), String> {
    deno_ast::stack::allow(arguments.stack << 20);
    let text = std::fs::read_to_string(&arguments.graph).map_err(|e| e.to_string())?;
    let value = serde_json::from_str(&text).map_err(|e| e.to_string())?;
    drop(text);
    let loaded = load::load(&value, arguments.options)?;
    drop(value);
    serve(&loaded).map_err(|e| e.to_string())
}

fn main() {
    let Some(arguments) = arguments() else {
        eprintln!("{USAGE}");
        std::process::exit(2);
    };
    std::panic::set_hook(Box::new(|_| {}));
    let worker = std::thread::Builder::new()
        .stack_size((arguments.stack + SPARE) << 20)
        .spawn(move || run(arguments))
        .expect("a thread");
    match worker.join() {
        Ok(Ok(())) => {}
        Ok(Err(why)) => {
            eprintln!("crate-symq: {why}");
            std::process::exit(4);
        }
        Err(_) => {
            eprintln!("crate-symq: panic");
            std::process::exit(9);
        }
    }
}
