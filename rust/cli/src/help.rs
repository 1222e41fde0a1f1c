//! Help and the manual page, made from the table of commands.

use crate::words::{usage, Command, COMMANDS};

/// What holds of all commands, a paragraph for each, and words that stand in the usage of those that it concerns.
const NOTES: [(&[&str], &str); 4] = [
    (
        &["--lenient"],
        "A red, green, blue or alpha that is not a number or lies outside 0 to 1 is refused; \
         with --lenient any is taken. `clear`, `slip`, `diff` and `mend` take any.",
    ),
    (
        &["FILE", "OLD", "OUT", "SLIP"],
        "FILE may be -, which is standard input; OUT may be -, which is standard output: \
         lines that are told then go to standard error. A file of that name is ./-.",
    ),
    (
        &["DIR"],
        "In the texts of `tables` the first line has the column names, and a tab stands between \
         cells. Whole numbers are signed decimals, so NONE is -1. A float is the shortest decimal \
         that reads back as the same float: 0.5, -0, 1e30, inf; what is not a number has its bits, \
         nan:7fc00001. In a name the backslash and bytes outside 33 to 126 are \\xNN, so a space is \
         \\x20. `build` also takes older texts, where a float is 8 hex digits.",
    ),
    (
        &["OUT", "DIR"],
        "A file that stands at OUT is replaced only with --force. What is written has the mode of \
         what was read, less the umask. A command that is refused or fails writes no file, and one \
         that is stopped leaves none. Options may stand anywhere; behind -- nothing is one.",
    ),
];

/// What 2 means of every command.
const TROUBLE: &str = "Trouble is wrong usage, or a file that cannot be read or written.";

/// The width of a line of help.
const WIDTH: usize = 80;

/// Help on all commands.
pub fn help() -> String {
    let mut text = usage(&COMMANDS);
    text += "       kelompuris --help\n       kelompuris --version\n\n";
    for command in &COMMANDS {
        let lines = wrapped(command.about, WIDTH - 8);
        let mut lines = lines.iter();
        match command.name.len() < 8 {
            true => text += &format!("{:8}{}\n", command.name, lines.next().unwrap()),
            false => text += &format!("{}\n", command.name),
        }
        for line in lines {
            text += &format!("        {line}\n");
        }
    }
    text + &notes_and_ends(&COMMANDS, |_| true)
}

/// Help on one command.
pub fn help_on(command: &Command) -> String {
    let about = wrapped(command.about, WIDTH).join("\n");
    let forms = command.usage.join(" ");
    // What holds of options and files that the command does not take is left out.
    let concerns = |words: &[&str]| words.iter().any(|word| forms.contains(word));
    let text = format!("{}\n{about}\n", usage([command]));
    text + &notes_and_ends([command], concerns)
}

/// What holds of all commands, where it concerns these, and how they end.
fn notes_and_ends<'a>(
    commands: impl IntoIterator<Item = &'a Command>,
    concerns: impl Fn(&[&str]) -> bool,
) -> String {
    let mut text = String::new();
    for (words, note) in NOTES {
        if concerns(words) {
            text += &format!("\n{}\n", wrapped(note, WIDTH).join("\n"));
        }
    }
    text += "\nExit status:\n";
    for command in commands {
        text += &format!("  {:11}", command.name);
        for (number, meaning) in command.status.iter().enumerate() {
            let cell = match meaning.is_empty() {
                true => String::new(),
                false => format!("  {number} {meaning}"),
            };
            let width = [19, 16, 0][number];
            text += &format!("{cell:width$}");
        }
        text.push('\n');
    }
    text + TROUBLE + "\n"
}

/// The words of a text in lines of at most `width` letters.
fn wrapped(text: &str, width: usize) -> Vec<String> {
    let mut lines = vec![String::new()];
    for word in text.split_whitespace() {
        let line = lines.last_mut().unwrap();
        match line.len() {
            0 => line.push_str(word),
            length if length + 1 + word.len() <= width => *line += &format!(" {word}"),
            _ => lines.push(word.to_string()),
        }
    }
    lines
}

/// The manual page, in the language of `man`.
pub fn manual() -> String {
    let mut page = String::from(
        ".TH KELOMPURIS 1\n\
.SH NAME\n\
kelompuris \\- check, show, clear, compare and mend B3D scenes, and cal3d skeletons and meshes\n\
.SH SYNOPSIS\n\
.B kelompuris\n.I COMMAND\n.RI [ OPTION ..]\n.IR FILE ..\n\
.SH DESCRIPTION\n\
Whether a file is accepted, what it holds and what is copied of it is said by proved functions. \
A file is accepted, or refused with a number and the byte of the fault.\n\
.SH COMMANDS\n",
    );
    for command in &COMMANDS {
        for (number, form) in command.usage.iter().enumerate() {
            page += ["\n.TP\n", ".TQ\n"][usize::from(number > 0)].trim_start();
            page += &format!(
                ".B {}\n",
                escaped(format!("{} {form}", command.name).trim_end())
            );
        }
        page += &format!("{}\n", escaped(command.about));
    }
    page += ".SH NOTES\n";
    for (_, note) in NOTES {
        page += &format!("{}\n.PP\n", escaped(note));
    }
    page += ".SH EXIT STATUS\n.TS\nl l l l.\ncommand\t0\t1\t2\n";
    for command in &COMMANDS {
        page += &format!("{}\t{}\n", command.name, command.status.join("\t"));
    }
    page += &format!(".TE\n.PP\n{TROUBLE}\n");
    page += ".SH EXAMPLES\n.nf\n";
    for example in [
        "kelompuris check *.b3d",
        "kelompuris explain bad.b3d",
        "kelompuris clear kitchen.b3d for_the_software_house.b3d",
        "kelompuris diff yesterday.b3d today.b3d",
        "kelompuris mend bad.b3d mended.b3d",
        "kelompuris mend bad.b3d - | kelompuris clear - without_names.b3d",
        "kelompuris stream < /dev/ttyS0",
    ] {
        page += &format!("{}\n", escaped(example));
    }
    format!("'\\\" t\n{page}.fi\n")
}

/// A text in which nothing is taken for an instruction of `man`.
fn escaped(text: &str) -> String {
    text.replace('\\', "\\e").replace('-', "\\-")
}
