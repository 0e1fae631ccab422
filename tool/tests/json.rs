//! The JSON is JSON, and its floats read back to the library's, bit for bit.
mod common;
use common::run;
use hizlaou::{flatten, held_curves, Path, PathBuilder, Vec2};

/// A small reader of JSON: as much as the tool writes.
#[derive(Debug, PartialEq)]
enum Value {
    Word(String),
    Text(String),
    List(Vec<Value>),
    Object(Vec<(String, Value)>),
}

struct Reader<'a>(&'a str);

impl Reader<'_> {
    fn take(&mut self, c: char) -> bool {
        let rest = self.0.strip_prefix(c);
        self.0 = rest.unwrap_or(self.0);
        rest.is_some()
    }

    fn value(&mut self) -> Value {
        if self.take('[') {
            return Value::List(self.items(']', Reader::value));
        }
        if self.take('{') {
            return Value::Object(self.items('}', |r| {
                let Value::Text(name) = r.value() else { panic!("a name is expected at {}", r.0) };
                assert!(r.take(':'));
                (name, r.value())
            }));
        }
        if self.take('"') {
            let (text, rest) = self.0.split_once('"').expect("a closing quote");
            assert!(!text.contains('\\'), "the tests' texts have nothing to escape");
            self.0 = rest;
            return Value::Text(text.into());
        }
        let end = self.0.find([',', ']', '}']).unwrap_or(self.0.len());
        let (word, rest) = self.0.split_at(end);
        self.0 = rest;
        assert!(matches!(word, "true" | "false" | "null") || is_number(word), "{word}");
        Value::Word(word.into())
    }

    fn items<T>(&mut self, close: char, item: impl Fn(&mut Self) -> T) -> Vec<T> {
        let mut list = Vec::new();
        if self.take(close) {
            return list;
        }
        loop {
            list.push(item(self));
            if self.take(close) {
                return list;
            }
            assert!(self.take(','), "a comma is expected at {}", self.0);
        }
    }
}

/// JSON's numbers: no plus, no leading zero, digits on both sides of the dot.
fn is_number(word: &str) -> bool {
    let (mantissa, exponent) = word.split_once('e').unwrap_or((word, "0"));
    let digits = |t: &str| !t.is_empty() && t.bytes().all(|b| b.is_ascii_digit());
    let (whole, fraction) = mantissa.split_once('.').unwrap_or((mantissa, "0"));
    let whole = whole.strip_prefix('-').unwrap_or(whole);
    digits(whole) && (whole == "0" || !whole.starts_with('0')) && digits(fraction) && digits(exponent.strip_prefix('-').unwrap_or(exponent))
}

fn read(text: &str) -> Value {
    let mut reader = Reader(text.strip_suffix('\n').expect("one line"));
    let value = reader.value();
    assert_eq!(reader.0, "");
    value
}

fn get<'a>(value: &'a Value, name: &str) -> &'a Value {
    let Value::Object(members) = value else { panic!("{value:?} is no object") };
    &members.iter().find(|(n, _)| n == name).unwrap_or_else(|| panic!("no {name}")).1
}

fn list(value: &Value) -> &[Value] {
    let Value::List(items) = value else { panic!("{value:?} is no list") };
    items
}

fn float(value: &Value) -> f32 {
    match value {
        Value::Word(word) | Value::Text(word) => word.parse().unwrap(),
        _ => panic!("{value:?} is no number"),
    }
}

fn bits(points: &[Vec2]) -> Vec<(u32, u32)> {
    points.iter().map(|p| (p.x.to_bits(), p.y.to_bits())).collect()
}

fn points(value: &Value) -> Vec<Vec2> {
    list(value).iter().map(|p| Vec2::new(float(&list(p)[0]), float(&list(p)[1]))).collect()
}

fn arch() -> Path {
    let mut b = PathBuilder::new();
    b.move_to(Vec2::new(-0.0, 0.1)).unwrap().cubic_to(Vec2::new(0.0, 8e9), Vec2::new(1.6e-7, 8.3), Vec2::new(16.1, f32::INFINITY)).unwrap();
    b.line_to(Vec2::new(1e-45, 3.4028235e38)).unwrap().close().unwrap();
    b.build()
}

#[test]
fn flattened_points_read_back() {
    let ran = run(&["flatten", "--json", "--tolerance", "1e8", "-d", "M -0 .1 C 0 8e9 1.6e-7 8.3 16.1 1e39 L 1e-45 3.4028235e38 Z"]);
    let answer = read(&ran.out);
    let expected = flatten(&arch(), 1e8).unwrap();
    let lines: Vec<_> = list(get(&answer, "polylines")).iter().map(|l| bits(&points(l))).collect();
    assert_eq!(lines, expected.iter().map(bits).collect::<Vec<_>>());
    let totals = get(&answer, "totals");
    assert_eq!(float(get(totals, "points")), expected.totals().points as f32);
    assert_eq!(float(get(totals, "counts")), expected.totals().counts as f32);
    assert!(ran.out.contains("-0.0") && ran.out.contains("\"Infinity\""), "{}", ran.out);
}

#[test]
fn each_polyline_is_closed_or_open() {
    let cases: [(&str, &[&str]); 6] = [
        ("", &[]),
        ("M0 0Z", &[]),
        ("M0 0H4V4Z", &["true"]),
        ("M0 0H4V4H0V0", &["false"]),
        ("M0 0H4ZV4", &["false"]),
        ("M0 0H4V4ZM9 9M0 0H4M0 0ZM0 0H4V0H0Z", &["true", "false", "true"]),
    ];
    for (data, closed) in cases {
        let answer = read(&run(&["flatten", "--json", "-d", data]).out);
        let words: Vec<Value> = closed.iter().map(|&word| Value::Word(word.into())).collect();
        assert_eq!((list(get(&answer, "closed")), list(get(&answer, "polylines")).len()), (&words[..], closed.len()), "{data}");
    }
    for command in [&["dash", "--style", "1"][..], &["dash"], &["convexity"], &["bounds"]] {
        assert!(!run(&[command, &["--json", "-d", "M0 0H4V4Z"]].concat()).out.contains("closed"), "{command:?}");
    }
}

#[test]
fn runs_and_totals_of_a_dash() {
    let answer = read(&run(&["dash", "--json", "--pattern", "2 1", "-d", "M0 0H8"]).out);
    let runs: Vec<Vec<f32>> = list(get(&answer, "runs")).iter().map(|r| points(r).iter().map(|p| p.x).collect()).collect();
    assert_eq!(runs, [[0.0, 2.0], [3.0, 5.0], [6.0, 8.0]]);
    assert_eq!(get(&answer, "kind"), &Value::Text("cut".into()));
    assert_eq!(get(get(&answer, "totals"), "runs"), &Value::Word("3".into()));
    assert_eq!(list(get(&answer, "run_ons")).len(), 0);
    assert!(list(get(&read(&run(&["dash", "--json", "--pattern", "0 5", "-d", "M0 0H8"]).out), "runs")).is_empty());
}

#[test]
fn what_runs_on_is_listed() {
    for (pattern, kind) in [("2 1 1e-9 1", "dash"), ("3 1e-9", "gap")] {
        let answer = read(&run(&["dash", "--json", "--pattern", pattern, "-d", "M9 9H10M0 0H8V4"]).out);
        let expected = read(&format!("[{{\"polyline\":2,\"at\":[3,0],\"kind\":\"{kind}\",\"length\":9}}]\n"));
        assert_eq!(get(&answer, "run_ons"), &expected);
        let running_on = ["dashes_running_on", "gaps_running_on"].map(|name| float(get(get(&answer, "totals"), name)));
        assert_eq!(running_on, if kind == "dash" { [1.0, 0.0] } else { [0.0, 1.0] });
    }
}

#[test]
fn a_whole_outline_has_its_reason() {
    let answer = read(&run(&["dash", "--json", "--pattern", "0.1 0.1", "-d", "M0 0Q1 2 3 4Z"]).out);
    assert_eq!(get(&answer, "kind"), &Value::Text("whole".into()));
    assert_eq!(get(&answer, "reason"), &Value::Text("period 0.2 is not over tolerance 0.25".into()));
    let outline = list(get(&answer, "outline"));
    assert_eq!(outline[1], read("[\"Q\",1,2,3,4]\n"));
    assert_eq!(outline.len(), 3);
}

/// A quad, a line, and a conic of eight quads, of which the first two and the last two bend the most.
fn quad_and_conic() -> (&'static str, Path) {
    let mut b = PathBuilder::new();
    b.move_to(Vec2::ZERO).unwrap().quad_to(Vec2::new(8.0, 8.0), Vec2::new(16.0, 0.0)).unwrap().line_to(Vec2::new(100.0, 0.0)).unwrap();
    b.conic_to(Vec2::new(100.0, 100.0), Vec2::new(0.0, 100.0), 2.0).unwrap();
    ("M0 0Q8 8 16 0H100K100 100 0 100 2", b.build())
}

#[test]
fn curves_held_back_are_counted_and_listed() {
    let (data, path) = quad_and_conic();
    let held = held_curves(&path, 1e-6);
    assert_eq!(held, [1, 3, 4, 9, 10]);
    assert_eq!(held.len(), flatten(&path, 1e-6).unwrap().totals().held);
    for command in [&["flatten"][..], &["dash", "--style", "1"]] {
        let answer = read(&run(&[command, &["--json", "--tolerance", "1e-6", "-d", data]].concat()).out);
        assert_eq!(get(get(&answer, "totals"), "held"), &Value::Word(held.len().to_string()));
        let verbs: Vec<f32> = list(get(&answer, "held_curves")).iter().map(float).collect();
        assert_eq!(verbs, held.iter().map(|&verb| verb as f32).collect::<Vec<_>>());
    }
}

#[test]
fn where_no_curve_is_held_back_the_total_is_0_and_the_list_empty() {
    let (data, _) = quad_and_conic();
    let whole = ["dash", "--style", "0", "--tolerance", "1e-6"];
    for command in [&["flatten"][..], &["dash", "--style", "1"], &whole] {
        let answer = read(&run(&[command, &["--json", "-d", data]].concat()).out);
        assert_eq!(get(get(&answer, "totals"), "held"), &Value::Word("0".into()), "{command:?}");
        assert!(list(get(&answer, "held_curves")).is_empty(), "{command:?}");
    }
    for command in ["convexity", "bounds"] {
        assert!(!run(&[command, "--json", "--tolerance", "1e-6", "-d", data]).out.contains("held"), "{command}");
    }
}

#[test]
fn every_example_and_refusal_is_json() {
    for line in common::lines() {
        for command in ["flatten", "dash", "convexity", "bounds"] {
            let mut words = vec![command.to_string(), "--json".into(), line.file.clone()];
            words.extend(line.order.clone());
            read(&run(&words).out);
        }
    }
    let refused = read(&run(&["dash", "--json", "--style", "9", "-d", ""]).out);
    assert_eq!(get(&refused, "refused"), &Value::Word("9".into()));
}
