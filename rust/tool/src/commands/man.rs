//! `tigmavresh man`: the manual page, made from the same words as the help.

use std::fmt::Write;

use clap::{Arg, Command, CommandFactory};

use crate::cli::Cli;
use crate::output::Output;
use crate::status::Status;

/// Writes the manual page.
pub fn run(output: &mut Output) -> Status {
    output.line(page(Cli::command()).trim_end());
    Status::Accepted
}

/// The page: the tool, its options, and each command.
fn page(mut tool: Command) -> String {
    tool.build();
    let name = tool.get_name().to_string();
    let version = tool.get_version().unwrap_or_default();
    let about = tool
        .get_about()
        .map(ToString::to_string)
        .unwrap_or_default();
    let (purpose, description) = about.split_once("\n\n").unwrap_or((&about, ""));
    let mut page = Page::default();
    let title = [name.to_uppercase(), "1".to_string(), String::new()];
    page.macro_line("TH", &[&title[..], &[format!("{name} {version}")]].concat());
    page.heading("NAME");
    page.text(&format!("{name} - {}", purpose.trim_end_matches('.')));
    page.heading("SYNOPSIS");
    for option in tool.get_opts() {
        page.line(&format!("{name} {}", called(option)));
        page.line(".br");
    }
    for command in tool.get_subcommands_mut() {
        page.usages(command);
    }
    page.heading("DESCRIPTION");
    page.text(description);
    page.heading("OPTIONS");
    page.arguments(tool.get_arguments());
    page.heading("COMMANDS");
    let shared = tool.get_after_help().map(ToString::to_string);
    for command in tool.get_subcommands() {
        page.commands("", command, &shared);
    }
    page.heading("EXIT STATUS");
    let words = shared.unwrap_or_default();
    page.text(words.trim_start_matches("Exit status:\n"));
    page.0
}

/// A manual page that is being written, in roff.
#[derive(Default)]
struct Page(String);

impl Page {
    /// A line of roff as it is.
    fn line(&mut self, line: &str) {
        self.0.push_str(line);
        self.0.push('\n');
    }

    /// A macro with its words in quotes.
    fn macro_line(&mut self, name: &str, words: &[String]) {
        let words: String = words
            .iter()
            .map(|word| format!(" \"{}\"", escaped(word)))
            .collect();
        self.line(&format!(".{name}{words}"));
    }

    /// The head of a section.
    fn heading(&mut self, title: &str) {
        self.macro_line("SH", &[title.to_string()]);
    }

    /// Text as the help has it: an empty line starts a paragraph, and a line that is indented by two an item of a list.
    fn text(&mut self, text: &str) {
        for line in text.lines() {
            let item = line
                .strip_prefix("  ")
                .filter(|rest| !rest.starts_with(' '));
            match item.and_then(|item| item.split_once("  ")) {
                _ if line.is_empty() => self.line(".PP"),
                Some((key, words)) => {
                    self.line(".TP");
                    self.words(key);
                    self.words(words.trim());
                }
                None => self.words(line.trim()),
            }
        }
    }

    /// A line of words.
    fn words(&mut self, words: &str) {
        // a dot or a quote at the start would be a macro
        let guard = if words.starts_with(['.', '\'']) {
            "\\&"
        } else {
            ""
        };
        self.line(&format!("{guard}{}", escaped(words)));
    }

    /// How a command is called, or each of its own commands, if it has some.
    fn usages(&mut self, command: &mut Command) {
        match command.has_subcommands() {
            true => command
                .get_subcommands_mut()
                .for_each(|one| self.usages(one)),
            false => self.usage(command),
        }
    }

    /// How a command is called.
    fn usage(&mut self, command: &mut Command) {
        let usage = command.render_usage().to_string();
        let usage = usage.trim_start_matches("Usage: ").replace(['<', '>'], "");
        self.words(&usage);
        self.line(".br");
    }

    /// A command, and then its own commands, if it has some.
    fn commands(&mut self, before: &str, command: &Command, shared: &Option<String>) {
        let name = format!("{before}{}", command.get_name());
        self.command(&name, command, shared);
        for one in command.get_subcommands() {
            self.commands(&format!("{name} "), one, shared);
        }
    }

    /// A command: what it does, its arguments, and what its help ends with, if all do not.
    fn command(&mut self, name: &str, command: &Command, shared: &Option<String>) {
        self.macro_line("SS", &[name.to_string()]);
        let about = command.get_about().map(ToString::to_string);
        let long = command.get_long_about().map(ToString::to_string);
        self.text(&long.or(about).unwrap_or_default());
        // every command has this one, and the page describes it once, for the tool
        let arguments = command.get_arguments();
        self.arguments(arguments.filter(|argument| argument.get_long() != Some("help")));
        let end = command.get_after_help().map(ToString::to_string);
        if end != *shared {
            self.line(".PP");
            self.text(&end.unwrap_or_default());
        }
    }

    /// Arguments and options, each with its help.
    fn arguments<'a>(&mut self, arguments: impl Iterator<Item = &'a Arg>) {
        for argument in arguments {
            self.line(".TP");
            self.line(&called(argument));
            let help = argument.get_help().map(ToString::to_string);
            self.words(&help.unwrap_or_default());
            let values = argument.get_possible_values();
            let values: Vec<&str> = values.iter().map(|value| value.get_name()).collect();
            if argument.is_positional() && !values.is_empty() {
                self.words(&format!("({})", values.join(", ")));
            }
        }
    }
}

/// How an argument is given, in roff: options bold, what the user fills in in italics.
fn called(argument: &Arg) -> String {
    let mut called = Vec::new();
    if let Some(short) = argument.get_short() {
        called.push(format!("\\fB\\-{short}\\fR"));
    }
    if let Some(long) = argument.get_long() {
        called.push(format!("\\fB\\-\\-{}\\fR", escaped(long)));
    }
    let mut called = called.join(", ");
    let names = match argument.get_num_args() {
        Some(count) if !count.takes_values() => &[],
        _ => argument.get_value_names().unwrap_or_default(),
    };
    for name in names {
        let blank = if called.is_empty() { "" } else { " " };
        let _ = write!(called, "{blank}\\fI{}\\fR", escaped(name));
    }
    called
}

/// Text with what roff takes for its own spelled out.
fn escaped(text: &str) -> String {
    let text = text.replace('\\', "\\e").replace('-', "\\-");
    text.replace('"', "\\(dq")
}

#[cfg(test)]
mod tests {
    use super::{escaped, Page};

    #[test]
    fn text_is_no_roff() {
        assert_eq!(escaped("a-b \\0 \"c\""), "a\\-b \\e0 \\(dqc\\(dq");
        let mut page = Page::default();
        page.text(".TH\n'x\n\nExit:\n  0  good\n     so\nend");
        assert_eq!(page.0, "\\&.TH\n\\&'x\n.PP\nExit:\n.TP\n0\ngood\nso\nend\n");
    }
}
