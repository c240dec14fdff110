//! Holds typed queries and answers to the lines of the stored cases.
#![cfg(feature = "json")]

use serde::de::DeserializeOwned;
use serde::Serialize;
use serde_json::{json, Value};
use std::collections::BTreeMap;
use std::fs;
use std::path::Path;
use symq::typed::{self, Fault, Query};
use symq::{Error, Session};

/// Reads an answer by the typed query that has this line, and returns it as JSON; `None` if the query isn't the line byte for byte.
fn by<T>(query: Query<T>, key: Option<&str>, line: &str, answer: &[u8]) -> Option<Value>
where
    T: DeserializeOwned + Serialize,
{
    if query.line() != format!("{line}\n") {
        return None;
    }
    Some(match query.read(answer).unwrap() {
        Err(Fault::UnknownModule) => Value::Null,
        Err(fault) => json!({ "fault": fault.to_string() }),
        Ok(found) => match (key, serde_json::to_value(&found).unwrap()) {
            (Some("module"), Value::Null) => Value::Null,
            (Some(key), value) => json!({ key: value }),
            (None, value) => value,
        },
    })
}

/// Returns what an answer line is by the typed query for the inputs of a query; `None` if there is no such query.
fn typed_inputs(of: &[Value], line: &str, answer: &[u8]) -> Option<Value> {
    let at = of.get(1)?.as_str()?;
    let number = || u32::try_from(of.get(2)?.as_u64()?).ok();
    let query = match of.first()?.as_str()? {
        "module" => typed::inputs(&typed::module(at)),
        "exports" => typed::inputs(&typed::exports(at)),
        "names" => typed::inputs(&typed::names(at)),
        "name" => typed::inputs(&typed::name(at, number()?)),
        "paths" => typed::inputs(&typed::paths(at, number()?)),
        "definitions" => typed::inputs(&typed::definitions(at, number()?)),
        "leaves" => typed::inputs(&typed::leaves(at, number()?)),
        "resolve" => {
            let reference = serde_json::from_value(of.get(2)?.clone()).ok()?;
            typed::inputs(&typed::resolve(at, &reference))
        }
        _ => return None,
    };
    by(query, Some("inputs"), line, answer)
}

/// Returns what an answer line is by the typed query of a line; `None` if there is no such query.
fn typed_answer(line: &str, answer: &[u8]) -> Option<Value> {
    let parts: Vec<Value> = serde_json::from_str(line).ok()?;
    if parts.first()? == "inputs" {
        return typed_inputs(parts.get(1)?.as_array()?, line, answer);
    }
    let text = |i: usize| parts.get(i)?.as_str();
    let number = |i: usize| u32::try_from(parts.get(i)?.as_u64()?).ok();
    let at = text(1)?;
    match text(0)? {
        "module" => by(typed::module(at), Some("module"), line, answer),
        "exports" => by(typed::exports(at), None, line, answer),
        "names" => by(typed::names(at), Some("names"), line, answer),
        "symbol" => by(
            typed::symbol(at, text(2)?, number(3)?),
            Some("symbol"),
            line,
            answer,
        ),
        "name" => by(typed::name(at, number(2)?), Some("name"), line, answer),
        "deps" => {
            let mode = serde_json::from_value(parts.get(3)?.clone()).ok()?;
            by(
                typed::deps(at, number(2)?, mode),
                Some("deps"),
                line,
                answer,
            )
        }
        "paths" => by(typed::paths(at, number(2)?), Some("paths"), line, answer),
        "definitions" => by(
            typed::definitions(at, number(2)?),
            Some("definitions"),
            line,
            answer,
        ),
        "leaves" => by(typed::leaves(at, number(2)?), Some("leaves"), line, answer),
        "resolve" => {
            let reference = serde_json::from_value(parts.get(2)?.clone()).ok()?;
            by(
                typed::resolve(at, &reference),
                Some("entries"),
                line,
                answer,
            )
        }
        _ => None,
    }
}

/// Returns the query lines of the stored cases, each with its answer.
fn stored() -> Vec<(String, String)> {
    let folder = Path::new(env!("CARGO_MANIFEST_DIR")).join("../../tests/cases");
    let mut found = Vec::new();
    for it in fs::read_dir(folder).unwrap() {
        let path = it.unwrap().path();
        let read = |name: &str| fs::read_to_string(path.join(name)).unwrap_or_default();
        let (queries, lines) = (read("queries"), read("lines"));
        let pairs = queries.split('\n').zip(lines.lines());
        found.extend(pairs.map(|(a, b)| (a.to_string(), b.to_string())));
    }
    found
}

#[test]
fn answers_lose_nothing() {
    let mut counts: BTreeMap<String, usize> = BTreeMap::new();
    for (query, answer) in stored() {
        if let Some(found) = typed_answer(&query, answer.as_bytes()) {
            assert_eq!(
                found,
                serde_json::from_str::<Value>(&answer).unwrap(),
                "{query}"
            );
            *counts
                .entry(query.split('"').nth(1).unwrap().to_string())
                .or_default() += 1;
        }
    }
    assert_eq!(counts.len(), 11, "{counts:?}");
    assert!(counts.values().all(|&it| it > 8), "{counts:?}");
}

#[test]
fn a_fault_is_an_error_of_one_query_and_listed_for_several() {
    let mut session = Session::open(b"{}").unwrap();
    assert_eq!(session.query(&typed::module("a")).unwrap(), None);
    let found = session.query(&typed::names("a"));
    assert!(matches!(found, Err(Error::Fault(Fault::UnknownModule))));
    let queries = [typed::names("a"), typed::names("b")];
    let wanted = vec![Err(Fault::UnknownModule), Err(Fault::UnknownModule)];
    assert_eq!(session.query_all(&queries).unwrap(), wanted);
    assert_eq!(typed::query(b"{}", &queries).unwrap(), wanted);
    assert_eq!(typed::strict_query(b"{}", &queries).unwrap(), wanted);
    assert!(matches!(typed::query(b"{", &queries), Err(Error::Stop(stop)) if stop.status == 4));
}

#[test]
fn deep_paths_are_read() {
    let depth = 5_000;
    let link = r#"{"decl":[1,0],"module":"m","next":["#;
    let last = r#"{"decl":[3,0],"end":2,"module":"m","start":1,"symbol":3}"#;
    let text = link.repeat(depth) + last + &r#"],"parts":[],"symbol":1}"#.repeat(depth);
    let line = format!("{{\"paths\":[{text}]}}\n");
    let work = move || {
        typed::paths("m", 1)
            .read(line.as_bytes())
            .unwrap()
            .unwrap()
            .len()
    };
    let thread = std::thread::Builder::new()
        .stack_size(256 << 20)
        .spawn(work);
    assert_eq!(thread.unwrap().join().unwrap(), 1);
}

#[test]
fn what_is_no_answer_is_an_error() {
    for it in [
        "",
        "{",
        "{}",
        "[]",
        r#"{"fault":"other"}"#,
        r#"{"paths":[{"module":"m"}]}"#,
    ] {
        assert!(typed::paths("m", 1).read(it.as_bytes()).is_err(), "{it}");
    }
}
