//! Reports of what runs found: JUnit's XML and JSON, as the Python package writes them.
use super::{Failure, Report};
use std::fmt::Write;

const FORMAT: u32 = 1;

/// A character that XML and JSON cannot have as it is, or that a terminal would act on.
fn is_control(it: char) -> bool {
    !matches!(it, '\t' | '\n') && (it < ' ' || matches!(it, '\x7f' | '\u{fffe}' | '\u{ffff}'))
}

/// A text in which control characters are `\x` and two digits.
fn clean(text: &str) -> String {
    text.chars().fold(String::new(), |mut out, it| {
        if is_control(it) {
            write!(out, "\\x{:02x}", u32::from(it)).expect("a string takes any text");
        } else {
            out.push(it);
        }
        out
    })
}

/// A text as the content of an element.
fn xml(text: &str) -> String {
    clean(text).replace('&', "&amp;").replace('<', "&lt;").replace('>', "&gt;")
}

/// A text as the value of an attribute.
fn attribute(text: &str) -> String {
    xml(text).replace('"', "&quot;").replace('\n', "&#10;").replace('\t', "&#9;")
}

/// A text as a string of JSON.
fn json(text: &str) -> String {
    let text = clean(text).replace('\\', "\\\\").replace('"', "\\\"");
    format!("\"{}\"", text.replace('\n', "\\n").replace('\t', "\\t"))
}

fn name(number: usize, it: &Failure) -> String {
    it.seed.map_or(format!("failure {}", number + 1), |seed| format!("seed {seed}"))
}

impl Report {
    /// The report as JUnit's XML, with a test case for each schedule that fails and one for all that pass.
    pub fn junit(&self) -> String {
        let mut cases = String::new();
        let script = attribute(&self.name);
        for (number, it) in self.failures.iter().enumerate() {
            let (case, message) = (name(number, it), attribute(&format!("{} failed: {}", it.part, it.message)));
            let text = xml(&it.to_string());
            let failure = format!("<failure type=\"{}\" message=\"{message}\">{text}</failure>", it.part.word());
            cases += &format!("<testcase classname=\"{script}\" name=\"{case}\">{failure}</testcase>\n");
        }
        let failed = self.failures.len();
        let passed = self.runs - failed as u64;
        if passed > 0 {
            cases += &format!("<testcase classname=\"{script}\" name=\"{passed} schedules that pass\"/>\n");
        }
        let tests = failed + usize::from(passed > 0);
        let counts = format!("tests=\"{tests}\" failures=\"{failed}\" errors=\"0\"");
        let suite = format!("name=\"watchtree::explore {script}\" time=\"{:.3}\" {counts}", self.elapsed.as_secs_f64());
        format!(
            "<?xml version=\"1.0\" encoding=\"utf-8\"?>\n<testsuites {counts}>\n<testsuite {suite}>\n{cases}\
             </testsuite>\n</testsuites>\n"
        )
    }

    /// The report in JSON, with the names that the Python package uses.
    pub fn json(&self) -> String {
        let failures: Vec<String> = self.failures.iter().enumerate().map(|(number, it)| failure(number, it)).collect();
        format!(
            "{{\"format\": {FORMAT}, \"tool\": \"watchtree::explore\", \"script\": {}, \"runs\": {}, \"reads\": {}, \
             \"failed\": {}, \"seconds\": {:.3},\n\"failures\": [{}]}}\n",
            json(&self.name),
            self.runs,
            self.reads,
            failures.len(),
            self.elapsed.as_secs_f64(),
            failures.join(",\n")
        )
    }
}

fn failure(number: usize, it: &Failure) -> String {
    let seed = it.seed.map_or("null".into(), |seed| seed.to_string());
    format!(
        "{{\"name\": {}, \"seed\": {seed}, \"where\": {}, \"message\": {}, \"schedule\": {}, \"timeline\": {}, \"found\": {}}}",
        json(&name(number, it)),
        json(it.part.word()),
        json(&it.message),
        json(&it.schedule.to_string()),
        json(&it.timeline),
        json(&it.found.to_string())
    )
}
