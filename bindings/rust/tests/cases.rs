//! Runs the stored cases of tests/cases by the call and by a session, compares them with the program's output, and tests the needs of a host.

use std::fs;
use std::path::{Path, PathBuf};
use std::thread;
use symq::{answer, strict_answer, Session, Stop};

/// The result of a run: status, output and error line.
type End = (u8, Vec<u8>, Vec<u8>);

/// A stored case: its graph, its lines, and the program's status, output and error line.
struct Case {
    name: String,
    is_strict: bool,
    graph: Vec<u8>,
    given: Vec<u8>,
    want: End,
}

fn case(folder: &Path) -> Option<Case> {
    let read = |name: &str| fs::read(folder.join(name)).unwrap_or_default();
    let is_strict = read("args") == b"--strict\ngraph.json\n";
    if folder.join("args").exists() && !is_strict {
        return None;
    }
    let status = String::from_utf8(read("status"))
        .unwrap()
        .trim()
        .parse()
        .unwrap_or(0);
    Some(Case {
        name: folder.display().to_string(),
        is_strict,
        graph: fs::read(folder.join("graph.json")).ok()?,
        given: read("queries"),
        want: (status, read("lines"), read("stderr")),
    })
}

fn cases() -> Vec<Case> {
    let folder = Path::new(env!("CARGO_MANIFEST_DIR")).join("../../tests/cases");
    let mut paths: Vec<PathBuf> = fs::read_dir(folder)
        .unwrap()
        .map(|it| it.unwrap().path())
        .collect();
    paths.sort();
    let found: Vec<Case> = paths.iter().filter_map(|it| case(it)).collect();
    assert!(
        found
            .iter()
            .filter(|it| it.want.0 == 0 && !it.given.is_empty())
            .count()
            > 20
    );
    assert!(found.iter().any(|it| it.is_strict));
    assert!(found.iter().any(|it| it.want.0 == 4) && found.iter().any(|it| it.want.0 == 5));
    found
}

fn end_of(told: Result<Vec<u8>, Stop>) -> End {
    match told {
        Ok(answers) => (0, answers, Vec::new()),
        Err(stop) => (
            stop.status,
            Vec::new(),
            format!("{}\n", stop.line).into_bytes(),
        ),
    }
}

fn by_call(case: &Case) -> End {
    let call = if case.is_strict {
        strict_answer
    } else {
        answer
    };
    end_of(call(&case.graph, &case.given))
}

fn open(case: &Case) -> Result<Session, Stop> {
    if case.is_strict {
        Session::strict(&case.graph)
    } else {
        Session::open(&case.graph)
    }
}

/// Answers by a session, which gets each line alone, on another thread.
fn by_session(case: &Case) -> End {
    let asked = |mut session: Session| {
        let lines = case.given.split_inclusive(|&byte| byte == b'\n');
        let parts: Result<Vec<Vec<u8>>, Stop> = lines.map(|it| session.ask(it)).collect();
        parts.map(|it| it.concat())
    };
    end_of(open(case).and_then(|it| thread::scope(|on| on.spawn(|| asked(it)).join().unwrap())))
}

/// Returns the names of the cases whose results differ from the program's.
fn wrong(end: fn(&Case) -> End) -> Vec<String> {
    cases()
        .into_iter()
        .filter(|it| end(it) != it.want)
        .map(|it| it.name)
        .collect()
}

#[test]
fn answers_are_the_programs() {
    assert_eq!(wrong(by_call), Vec::<String>::new());
}

#[test]
fn a_sessions_answers_are_the_programs() {
    assert_eq!(wrong(by_session), Vec::<String>::new());
}

#[test]
fn many_sessions_at_once() {
    let cases = cases();
    let mut sessions: Vec<(&Case, Session)> = cases
        .iter()
        .filter_map(|it| Some((it, open(it).ok()?)))
        .collect();
    for (case, session) in sessions.iter_mut().rev() {
        assert_eq!(session.ask(&case.given).unwrap(), case.want.1);
        assert_eq!(session.ask(&case.given).unwrap(), case.want.1);
    }
}

#[test]
fn a_put_module_is_answered() {
    let text = |names: &[&str], rows: &str| {
        let modules: Vec<String> = names
            .iter()
            .map(|it| format!(r#"{{"specifier":"{it}","kind":"json","text":"1"}}"#))
            .collect();
        let modules = modules.join(",");
        format!(r#"{{"modules":[{modules}],"resolutions":[{rows}]}}"#)
    };
    let lines = b"[\"module\",\"a\"]\n[\"module\",\"b\"]\n";
    let mut session = Session::open(text(&["a"], "").as_bytes()).unwrap();
    let before = session.ask(lines).unwrap();
    let rows = r#"["b","./a","a"]"#;
    for (module, status, line) in [
        ("{".to_string(), 4, "symq: not a graph: json"),
        (text(&["a", "b"], ""), 4, "symq: not a graph: form"),
        (
            text(&["b"], r#"["a","./b","b"]"#),
            4,
            "symq: not a graph: form",
        ),
        (
            text(&["b"], &format!("{rows},{rows}")),
            5,
            "symq: graph refused: 6 b ./a",
        ),
    ] {
        let line = line.to_string();
        assert_eq!(session.put(module.as_bytes()), Err(Stop { status, line }));
        assert_eq!(session.ask(lines).unwrap(), before);
    }
    session.put(text(&["b"], rows).as_bytes()).unwrap();
    let want = b"{\"module\":\"a\"}\n{\"module\":\"b\"}\n";
    assert_eq!(session.ask(lines).unwrap(), want);
}

#[test]
fn four_threads_at_once() {
    let threads: Vec<_> = (0..4).map(|_| thread::spawn(|| wrong(by_call))).collect();
    for it in threads {
        assert_eq!(it.join().unwrap(), Vec::<String>::new());
    }
}

#[test]
fn long_answers_and_lines() {
    let line = format!("[\"module\",\"{}\"]\n", "a".repeat(300_000));
    let lines = line + &"x\n".repeat(20_000);
    let want = format!("null\n{}", "{\"fault\":\"bad query\"}\n".repeat(20_000));
    assert_eq!(answer(b"{}", lines.as_bytes()).unwrap(), want.as_bytes());
    let mut session = Session::open(b"{}").unwrap();
    assert_eq!(session.ask(lines.as_bytes()).unwrap(), want.as_bytes());
}

/// Returns the text of a graph of modules in a row, each of which re-exports a name from the next one; the last declares it.
fn passed_on(count: usize) -> String {
    let module = |n: usize, nodes: String| {
        let program = r#"{"kind":"Program","range":[0,1],"body":[1]}"#;
        format!(
            r#"{{"specifier":"m{n}","kind":"esm","text":" ","tree":{{"nodes":[{program},{nodes}]}}}}"#
        )
    };
    let passing = |n: usize| {
        let next = n + 1;
        let first =
            format!(r#"{{"kind":"ExportNamed","range":[0,1],"specifiers":[2],"src":"m{next}"}}"#);
        let second = r#"{"kind":"ExportSpecifier","range":[0,1],"orig":3},{"kind":"Ident","range":[0,1],"sym":["x",1]}"#;
        module(n, format!("{first},{second}"))
    };
    let declared = r#"{"kind":"ExportDecl","range":[0,1],"decl":2},{"kind":"VarDecl","range":[0,1],"decls":[3]},
        {"kind":"VarDeclarator","range":[0,1],"name":4},{"kind":"BindingIdent","range":[0,1],"sym":["x",1]}"#;
    let mut modules: Vec<String> = (0..count - 1).map(passing).collect();
    modules.push(module(count - 1, declared.into()));
    let resolution = |n: usize| format!(r#"["m{n}","m{0}","m{0}"]"#, n + 1);
    let resolutions: Vec<String> = (0..count - 1).map(resolution).collect();
    format!(
        r#"{{"modules":[{}],"resolutions":[{}]}}"#,
        modules.join(","),
        resolutions.join(",")
    )
}

#[test]
fn a_small_stack_suffices_for_long_ways() {
    let graph = passed_on(20_000).into_bytes();
    let asked = move || answer(&graph, b"[\"paths\",\"m0\",1]\n").unwrap();
    let thread = thread::Builder::new().stack_size(256 << 10).spawn(asked);
    let found = String::from_utf8(thread.unwrap().join().unwrap()).unwrap();
    assert_eq!(found.matches(r#""module":"m"#).count(), 20_000);
}

#[test]
fn a_long_error_line() {
    let module = format!(
        "{{\"specifier\":\"{}\",\"kind\":\"external\"}}",
        "a".repeat(100_000)
    );
    let graph = format!("{{\"modules\":[{module},{module}]}}").into_bytes();
    let want = Stop {
        status: 5,
        line: format!("symq: graph refused: 3 {}", "a".repeat(100_000)),
    };
    assert_eq!(answer(&graph, b"").unwrap_err(), want);
}

#[cfg(feature = "json")]
#[test]
fn values() {
    let query = serde_json::from_slice(b"[\"module\",\"a\"]").unwrap();
    let queries = [query, serde_json::from_slice(b"[]").unwrap()];
    let mut session = Session::open(b"{}").unwrap();
    for found in [
        symq::answer_values(b"{}", &queries),
        session.ask_values(&queries),
    ] {
        let texts: Vec<String> = found.unwrap().iter().map(|it| it.to_string()).collect();
        assert_eq!(texts, ["null", "{\"fault\":\"bad query\"}"]);
    }
    assert!(
        matches!(symq::answer_values(b"{", &[]), Err(symq::Error::Stop(stop)) if stop.status == 4)
    );
}
