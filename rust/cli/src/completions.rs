//! Completions for shells, made from the table of commands.

use crate::words::{Command, Plain, Takes, COMMANDS};
use std::path::Path;

/// The completions for a shell, if there are any for it.
pub fn of(shell: &Path) -> Option<String> {
    match shell.to_str()? {
        "bash" => Some(bash()),
        "zsh" => Some(zsh()),
        "fish" => Some(fish()),
        _ => None,
    }
}

fn names() -> String {
    COMMANDS.each_ref().map(|command| command.name).join(" ")
}

fn options(command: &Command) -> Vec<&'static str> {
    let own = command.options.iter().map(|(option, _)| *option);
    own.chain(["--help"]).collect()
}

fn bash() -> String {
    let mut cases = String::new();
    for command in &COMMANDS {
        let own = options(command).join(" ");
        let plain = match command.plain {
            Plain::Nothing => "words=".to_string(),
            Plain::Files => "files=1".to_string(),
            Plain::Words(words) => format!("words='{}'", words.join(" ")),
        };
        cases += &format!("        {}) options='{own}'; {plain} ;;\n", command.name);
    }
    let values = |takes: Takes| {
        let each = COMMANDS.iter().flat_map(|command| command.options);
        let mut each: Vec<&str> = each
            .filter(|(_, own)| *own == takes)
            .map(|(option, _)| *option)
            .collect();
        each.sort();
        each.dedup();
        each.join("|")
    };
    format!(
        "# Completions of kelompuris for bash, made by `kelompuris completions bash`.
_kelompuris() {{
    local word=${{COMP_WORDS[COMP_CWORD]}} before=${{COMP_WORDS[COMP_CWORD-1]}} options= words= files=
    COMPREPLY=()
    if [ \"$COMP_CWORD\" = 1 ]; then
        COMPREPLY=($(compgen -W '{names} --help --version' -- \"$word\"))
        return
    fi
    case $before in
        {files}) compopt -o filenames 2>/dev/null; mapfile -t COMPREPLY < <(compgen -f -- \"$word\"); return ;;
        {numbers}) return ;;
    esac
    case ${{COMP_WORDS[1]}} in
{cases}    esac
    case $word in
        -*) COMPREPLY=($(compgen -W \"$options\" -- \"$word\")) ;;
        *) if [ -n \"$files\" ]; then
               compopt -o filenames 2>/dev/null
               mapfile -t COMPREPLY < <(compgen -f -- \"$word\")
           else
               COMPREPLY=($(compgen -W \"$words\" -- \"$word\"))
           fi ;;
    esac
}}
complete -F _kelompuris kelompuris
",
        names = names(),
        files = values(Takes::File),
        numbers = values(Takes::Number),
    )
}

fn zsh() -> String {
    let mut list = String::new();
    let mut cases = String::new();
    for command in &COMMANDS {
        let short = command.short.replace('\'', "'\\''");
        list += &format!("        '{}:{short}'\n", command.name);
        let mut parts = Vec::new();
        for (option, takes) in command.options {
            parts.push(match takes {
                Takes::Nothing => format!("'{option}'"),
                Takes::Number => format!("'{option}:number:'"),
                Takes::File => format!("'{option}:file:_files'"),
            });
        }
        parts.push("'--help'".to_string());
        match command.plain {
            Plain::Nothing => {}
            Plain::Files => parts.push("'*:file:_files'".to_string()),
            Plain::Words(words) => parts.push(format!("'1:word:({})'", words.join(" "))),
        }
        cases += &format!(
            "        {}) _arguments {} ;;\n",
            command.name,
            parts.join(" ")
        );
    }
    format!(
        "#compdef kelompuris
# Completions of kelompuris for zsh, made by `kelompuris completions zsh`.
_kelompuris() {{
    local -a commands
    commands=(
{list}    )
    if (( CURRENT == 2 )); then
        _describe command commands
        return
    fi
    local command=$words[2]
    shift words
    (( CURRENT-- ))
    case $command in
{cases}    esac
}}
_kelompuris \"$@\"
"
    )
}

fn fish() -> String {
    let mut text = String::from(
        "# Completions of kelompuris for fish, made by `kelompuris completions fish`.\ncomplete -c kelompuris -f\n",
    );
    for command in &COMMANDS {
        let Command { name, short, .. } = command;
        let short = short.replace('\'', "\\'");
        text +=
            &format!("complete -c kelompuris -n __fish_use_subcommand -a {name} -d '{short}'\n");
        let when = format!("complete -c kelompuris -n '__fish_seen_subcommand_from {name}'");
        for (option, takes) in command.options {
            let takes = match takes {
                Takes::Nothing => "",
                Takes::Number => " -x",
                Takes::File => " -rF",
            };
            text += &format!("{when} -l {}{takes}\n", option.trim_start_matches('-'));
        }
        match command.plain {
            Plain::Nothing => {}
            Plain::Files => text += &format!("{when} -F\n"),
            Plain::Words(words) => text += &format!("{when} -a '{}'\n", words.join(" ")),
        }
    }
    text
}
