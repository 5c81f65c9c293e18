//! The text of a run: what the consumer asked, what happened, and which events it read.
use crate::{Error, Events, Instance};
use std::fmt::{self, Debug, Write};

#[derive(Debug, Default)]
pub(crate) struct Timeline(String);

impl fmt::Display for Timeline {
    fn fmt(&self, f: &mut fmt::Formatter<'_>) -> fmt::Result {
        f.write_str(&self.0)
    }
}

impl Timeline {
    fn push(&mut self, line: fmt::Arguments<'_>) {
        self.0.write_fmt(line).and_then(|()| self.0.write_char('\n')).expect("a string takes any text");
    }

    pub fn line(&mut self, line: &str, reply: &[u8], when: &str) {
        let reply = String::from_utf8_lossy(reply);
        let refused = reply.lines().next().filter(|it| it.starts_with("err")).map(|it| format!(": {it}"));
        self.push(format_args!("          > {line}{}  [{when}]", refused.unwrap_or_default()));
    }

    pub fn request(&mut self, number: u32, name: &str, words: &str, answer: &Result<impl Debug, Error>) {
        match answer {
            Ok(answer) => self.push(format_args!("{number:8}  {name} {words} = {answer:?}")),
            Err(error) => self.push(format_args!("{number:8}  {name} {words} = {error}")),
        }
    }

    pub fn read(&mut self, number: u32, instance: Instance, events: &Events, limit: Option<u32>) {
        let most = limit.map_or(String::new(), |it| format!(", at most {it}"));
        self.push(format_args!("{number:8}  read {}{most}:", instance.0));
        for event in events {
            let name = event.name.map_or(String::new(), |it| format!(" {}", it.to_string_lossy()));
            let cookie = if event.cookie == 0 { String::new() } else { format!(" cookie {}", event.cookie) };
            self.push(format_args!("          < wd {} {}{cookie}{name}", event.wd, event.mask()));
        }
    }

    pub fn end(&mut self) {
        self.push(format_args!("          the end: no line is left, and no record waits"));
    }

    pub fn failed(&mut self, by: &str, message: &str) {
        self.push(format_args!("          {by} failed: {message}"));
    }
}
