//! Checks every case of `bindings/cases.txt`. The package leaves this file out, and `printing.rs` has tests that need no file.

use std::io;
use wasmprinter::{Config, Error, Print, PrintError};

const CASES: &str = include_str!("../../cases.txt");

/// Buffers are filled with this byte before a call.
const GUARD: u8 = 0xa5;

/// The expected error of a case: its name, its description, and the text in the buffer after it.
#[derive(Default)]
struct Refusal {
    name: String,
    text: String,
    left: String,
}

/// Keeps the lines of a text. Checks that styles start and end in turn. No case has a style that starts in another one.
#[derive(Default)]
struct Lines {
    ended: Vec<(Option<u64>, String)>,
    line: (Option<u64>, String),
    has_style: bool,
}

impl Lines {
    fn start(&mut self) -> io::Result<()> {
        assert!(!self.has_style);
        self.has_style = true;
        Ok(())
    }
}

impl Print for Lines {
    fn write_str(&mut self, s: &str) -> io::Result<()> {
        self.line.1 += s;
        Ok(())
    }

    fn newline(&mut self) -> io::Result<()> {
        self.line.1 += "\n";
        self.ended.push(std::mem::take(&mut self.line));
        Ok(())
    }

    fn start_line(&mut self, binary_offset: Option<u64>) {
        assert_eq!(self.line, (None, String::new()));
        self.line.0 = binary_offset;
    }

    fn start_literal(&mut self) -> io::Result<()> {
        self.start()
    }

    fn start_name(&mut self) -> io::Result<()> {
        self.start()
    }

    fn start_keyword(&mut self) -> io::Result<()> {
        self.start()
    }

    fn start_type(&mut self) -> io::Result<()> {
        self.start()
    }

    fn start_comment(&mut self) -> io::Result<()> {
        self.start()
    }

    fn reset_color(&mut self) -> io::Result<()> {
        assert!(self.has_style);
        self.has_style = false;
        Ok(())
    }
}

/// A case: the input and the expected results.
#[derive(Default)]
struct Case {
    title: String,
    config: Config,
    /// The names of custom sections to leave out.
    omitted: Vec<String>,
    /// The indent is not UTF-8, so it has no `String`.
    is_unprintable: bool,
    wasm: Vec<u8>,
    has_places: bool,
    lines: Vec<(Option<u64>, String)>,
    refusal: Option<Refusal>,
}

fn bytes_of(words: &str) -> impl Iterator<Item = u8> + '_ {
    words
        .split_whitespace()
        .map(|word| u8::from_str_radix(word, 16).expect("a byte"))
}

impl Case {
    fn read(&mut self, line: &str) {
        let (key, words) = line.split_once(' ').unwrap_or((line, ""));
        match key {
            "set" => words.split(' ').for_each(|word| self.set(word)),
            "indent" => match String::from_utf8(bytes_of(words).collect()) {
                Ok(indent) => drop(self.config.indent_text(indent)),
                Err(_) => self.is_unprintable = true,
            },
            "omit" => {
                self.omitted.push(words.to_owned());
                self.config.omit_custom_sections(&self.omitted);
            }
            "wasm" => self.wasm.extend(bytes_of(words)),
            "zeros" => {
                let zeros: usize = words.parse().expect("a number");
                self.wasm.resize(self.wasm.len() + zeros, 0);
            }
            "places" => self.has_places = true,
            "error" => {
                let parts: Vec<&str> = words.splitn(3, ' ').collect();
                self.refusal = Some(Refusal {
                    name: parts[0].to_owned(),
                    text: parts[2].to_owned(),
                    left: String::new(),
                });
            }
            "left" => self.refusal.as_mut().expect("an error").left = words.to_owned(),
            _ => {
                let (place, text) = line.split_once('|').expect("a line of the text");
                let place =
                    (!place.is_empty()).then(|| u64::from_str_radix(place, 16).expect("a place"));
                self.lines.push((place, format!("{text}\n")));
            }
        }
    }

    fn set(&mut self, option: &str) {
        match option {
            "offsets" => self.config.print_offsets(true),
            "skeleton" => self.config.print_skeleton(true),
            "name_unnamed" => self.config.name_unnamed(true),
            "fold" => self.config.fold_instructions(true),
            _ => panic!("no option: {option}"),
        };
    }

    fn check(&self) {
        match &self.refusal {
            _ if self.is_unprintable => (),
            None => {
                self.check_text();
                self.check_lines();
                self.check_printer();
            }
            Some(refusal) => self.check_refusal(refusal),
        }
    }

    fn check_text(&self) {
        let typed: String = self.lines.iter().map(|line| line.1.as_str()).collect();
        let printed = self.config.print_to_string(&self.wasm);
        assert_eq!(printed.as_deref(), Ok(typed.as_str()), "{}", self.title);
        let limited = self.limited(typed.len());
        for room in 0..typed.len() + 2 {
            for config in [&self.config, &limited] {
                let printed = self.check_over(config, room, &typed);
                assert_eq!(printed, Ok(typed.len()), "{}", self.title);
            }
        }
        for limit in 0..typed.len() + 3 {
            self.check_limit(limit, &typed);
        }
    }

    /// Returns the options of the case with a limit.
    fn limited(&self, limit: usize) -> Config {
        let mut config = self.config.clone();
        config.limit(Some(limit));
        config
    }

    /// Prints with a limit.
    fn check_limit(&self, limit: usize, typed: &str) {
        let config = self.limited(limit);
        let printed = config.print_to_string(&self.wasm);
        let mut storage = String::new();
        let lines = config
            .offsets_and_lines(&self.wasm, &mut storage)
            .map(Iterator::count);
        if limit >= typed.len() {
            assert_eq!(printed.as_deref(), Ok(typed), "{}", self.title);
            assert_eq!(lines, Ok(self.lines.len()), "{}", self.title);
            assert_eq!(storage, typed, "{}", self.title);
            return;
        }
        assert_eq!(printed, Err(Error::TooLong), "{}", self.title);
        assert_eq!(lines, Err(Error::TooLong), "{}", self.title);
        assert_eq!(storage, "", "{}", self.title);
        let mut out = vec![GUARD; typed.len()];
        let over = config.print_over(&self.wasm, &mut out);
        assert_eq!(over, Err(Error::TooLong), "{}", self.title);
        let held = out.iter().take_while(|byte| **byte != GUARD).count();
        assert!(held <= limit, "{}", self.title);
        assert_eq!(out[..held], typed.as_bytes()[..held], "{}", self.title);
        assert_eq!(out[held..], vec![GUARD; typed.len() - held]);
    }

    /// Prints to a buffer of `room` bytes. Checks that it holds as much of the text as fits, and that its other bytes are unchanged.
    fn check_over(&self, config: &Config, room: usize, typed: &str) -> wasmprinter::Result<usize> {
        let mut out = vec![GUARD; room];
        let printed = config.print_over(&self.wasm, &mut out);
        let fits = room.min(typed.len());
        assert_eq!(&out[..fits], &typed.as_bytes()[..fits], "{}", self.title);
        assert_eq!(out[fits..], vec![GUARD; room - fits], "{}", self.title);
        printed
    }

    fn check_lines(&self) {
        let mut storage = "before\n".to_owned();
        let lines: Vec<(Option<u64>, String)> = self
            .config
            .offsets_and_lines(&self.wasm, &mut storage)
            .expect("lines")
            .map(|(place, text)| (self.has_places.then_some(place).flatten(), text.to_owned()))
            .collect();
        assert_eq!(lines, self.lines, "{}", self.title);
        assert!(storage.starts_with("before\n(module"), "{}", self.title);
    }

    /// Prints call by call.
    fn check_printer(&self) {
        let mut lines = Lines::default();
        self.config.print(&self.wasm, &mut lines).expect("a text");
        assert!(!lines.has_style, "{}", self.title);
        if !self.has_places {
            lines.ended.iter_mut().for_each(|line| line.0 = None);
        }
        assert_eq!(lines.ended, self.lines, "{}", self.title);
    }

    fn check_refusal(&self, refusal: &Refusal) {
        let error = self.config.print_to_string(&self.wasm).unwrap_err();
        // An error that is found before printing does not depend on the limit.
        let limited = self.limited(refusal.left.len());
        let printed = limited.print_to_string(&self.wasm);
        assert_eq!(printed, Err(error), "{}", self.title);
        let debug = format!("{error:?}");
        assert_eq!(debug.split(' ').next(), Some(refusal.name.as_str()));
        assert_eq!(error.to_string(), refusal.text);
        match self.config.print(&self.wasm, &mut Lines::default()) {
            Err(PrintError::Module(other)) => assert_eq!(other, error, "{}", self.title),
            other => panic!("{}: {other:?}", self.title),
        }
        let mut storage = "before\n".to_owned();
        let lines = self.config.offsets_and_lines(&self.wasm, &mut storage);
        assert_eq!(lines.err(), Some(error), "{}", self.title);
        assert_eq!(storage, "before\n", "{}", self.title);
        for room in 0..refusal.left.len() + 2 {
            let printed = self.check_over(&self.config, room, &refusal.left);
            assert_eq!(printed, Err(error), "{}", self.title);
        }
    }
}

#[test]
fn prints_each_case() {
    let mut cases: Vec<Case> = Vec::new();
    for line in CASES
        .lines()
        .filter(|line| !line.is_empty() && !line.starts_with('#'))
    {
        match line.strip_prefix("case ") {
            Some(title) => cases.push(Case {
                title: title.to_owned(),
                ..Case::default()
            }),
            None => cases.last_mut().expect("a case").read(line),
        }
    }
    assert!(cases.len() > 20);
    cases.iter().for_each(Case::check);
}
