//! `kelompuris`: B3D scene files checked, also as they come, listed, labelled, taken apart, put
//! together, cleared of names, compared and mended, and their slips; skeletons and meshes of cal3d
//! checked, listed and taken apart; all by the proved functions.

mod answer;
mod cal3d;
mod closed;
mod commands;
mod completions;
mod diff;
mod explain;
mod help;
mod json;
mod mend;
mod output;
mod progress;
mod run;
mod temporary;
mod text;
mod tree;
mod words;

use answer::Stop;
use cal3d::Kind;
use kelompuris::Mode;
use run::Run;
use std::env;
use std::ffi::OsString;
use std::io::{self, Write};
use std::path::Path;
use std::process::ExitCode;
use words::{usage, Words, COMMANDS};

fn main() -> ExitCode {
    let args: Vec<OsString> = env::args_os().skip(1).collect();
    let mut run = Run::default();
    let done = command(&args, &mut run);
    let (why, status) = match run.end(done) {
        Ok(()) => return ExitCode::SUCCESS,
        Err(Stop::Refused(why) | Stop::Found(why)) => (why, 1),
        Err(Stop::Failed(why)) => (why, 2),
    };
    // Nothing is left to tell if this cannot be written either.
    let _ = writeln!(io::stderr(), "kelompuris: {}", why.trim_end());
    ExitCode::from(status)
}

fn command(args: &[OsString], run: &mut Run) -> Result<(), Stop> {
    let Some((command, words)) = args.split_first() else {
        return Err(Stop::Failed(usage(&COMMANDS)));
    };
    match (command.to_str(), words) {
        (Some("--help" | "-h" | "help"), []) => return told(run, help::help()),
        (Some("help"), [command]) => {
            if let Some(found) = COMMANDS.iter().find(|each| command == each.name) {
                return told(run, help::help_on(found));
            }
        }
        (Some("--version" | "-V"), []) => {
            let version = concat!("kelompuris ", env!("CARGO_PKG_VERSION"), "\n");
            return told(run, version.to_string());
        }
        _ => {}
    }
    let Some(found) = COMMANDS.iter().find(|each| command == each.name) else {
        let command = answer::printable(Path::new(command));
        return Err(Stop::Failed(format!(
            "no command {command}\n{}",
            usage(&COMMANDS)
        )));
    };
    let words = Words::of(found, words)?;
    if words.help {
        return told(run, help::help_on(found));
    }
    let mode = match words.flag("--lenient") {
        true => Mode::Lenient,
        false => Mode::Strict,
    };
    let force = words.flag("--force");
    let paths: Vec<&Path> = words.paths.iter().map(|path| path.as_path()).collect();
    match (found.name, &paths[..]) {
        ("check", [_, ..]) => commands::check(mode, &paths, words.flag("--json"), run),
        ("list", [file]) => commands::list(mode, file, run),
        ("tree", [file]) => commands::tree(mode, file, run),
        ("explain", [file]) => commands::explain(mode, file, run),
        ("stream", []) => commands::stream(piece(&words)?, &mut io::stdin().lock(), run),
        ("label", [file]) => commands::label(file, run),
        ("tables", [file, folder]) => commands::tables(mode, file, folder, run),
        ("build", [folder, target]) => commands::build(mode, folder, target, force, run),
        ("clear", [file, target]) => commands::clear(file, target, force, run),
        ("slip", [slip]) if words.flag("--show") && !force => commands::show_slip(slip, run),
        ("slip", [file, target]) if !words.flag("--show") => {
            commands::slip(file, target, force, run)
        }
        ("diff", [old, new]) => {
            let raw = words.value("--raw")?.map(Path::new);
            diff::diff([old, new], raw, words.flag("--json"), force, run)
        }
        ("mend", [file, target]) => {
            let report = words.value("--report")?.map(Path::new);
            mend::mend(file, target, report, force, run)
        }
        ("skeleton", paths) => on_cal3d(&words, Kind::Skeleton, paths, run),
        ("mesh", paths) => {
            let bones = cal3d::bones(&words, run)?;
            on_cal3d(&words, Kind::Mesh { bones }, paths, run)
        }
        ("manual", []) => told(run, help::manual()),
        ("completions", [shell]) => match completions::of(shell) {
            Some(text) => told(run, text),
            None => Err(words.wrong("not such a shell")),
        },
        _ => Err(words.wrong("not these files")),
    }
}

fn told(run: &mut Run, text: String) -> Result<(), Stop> {
    run.lines.extend_from_slice(text.as_bytes());
    Ok(())
}

/// The most bytes of a piece that `stream` is to take.
fn piece(words: &Words) -> Result<usize, Stop> {
    let Some(most) = words.value("--piece")? else {
        return Ok(commands::PIECE);
    };
    let most = most.to_str().and_then(|digits| digits.parse().ok());
    let most = most.filter(|most| (1..=commands::LARGEST_PIECE).contains(most));
    most.ok_or_else(|| words.wrong("a piece is 1 to 65536 bytes"))
}

/// What the words behind `skeleton` or `mesh` ask for.
fn on_cal3d(words: &Words, kind: Kind, paths: &[&Path], run: &mut Run) -> Result<(), Stop> {
    match (words.flag("--check"), words.flag("--tables"), paths) {
        (true, false, [_, ..]) => cal3d::check(kind, paths, run),
        (false, true, [file, folder]) => cal3d::tables(kind, file, folder, run),
        (false, false, [file]) => cal3d::list(kind, file, run),
        _ => Err(words.wrong("not these files")),
    }
}
