//! How the command is used, from its one table of commands and options: `copybook help`, `copybook COMMAND --help`,
//! and, for tools/install, the man page and what bash, zsh and fish complete.

use crate::{files, forms, Command, COMMANDS};

/// An option of a command.
pub struct Opt {
    pub name: &'static str,
    /// The word that stands for its value; a flag has none.
    pub value: Option<&'static str>,
    /// The values that shells offer.
    pub words: &'static [&'static str],
    /// What it does. Shells show it as far as its first semicolon.
    pub about: &'static str,
}

impl Opt {
    /// One without a value.
    pub const fn flag(name: &'static str, about: &'static str) -> Opt {
        Opt { name, value: None, words: &[], about }
    }

    /// One with a value, for which that word stands.
    pub const fn valued(name: &'static str, value: &'static str, about: &'static str) -> Opt {
        Opt { name, value: Some(value), words: &[], about }
    }

    /// The same with the values that shells offer.
    pub const fn one_of(self, words: &'static [&'static str]) -> Opt {
        Opt { words, ..self }
    }

    /// As it is typed.
    fn typed(&self) -> String {
        self.value.map_or(self.name.into(), |value| format!("{} {value}", self.name))
    }

    /// What it does, in short.
    fn short(&self) -> &'static str {
        self.about.split(';').next().unwrap_or(self.about)
    }
}

/// The options that several commands have.
pub const CARDS: Opt = Opt::flag(
    forms::CARDS,
    "the copybook is on cards with columns: 1 to 6 and those after 72 are ignored, 7 is an indicator",
);
pub const ANY_BYTES: Opt = Opt::flag(
    files::ANY_BYTES,
    "every byte over 127 is read as ?; standard error says how many there are, and on which lines",
);

const TITLE: &str = "where the columns of a COBOL copybook's record are, and what they hold";
const INPUT: &str = "Without a FILE, or with -, the copybook is read from standard input.";

/// What is there beside the commands, and what it prints.
const OTHERS: [(&str, &str); 2] =
    [("help [COMMAND], COMMAND --help", "how a command is used"), ("--version", "which one this is")];

const STATUSES: [(u8, &str); 4] = [
    (0, "answered"),
    (1, "refused"),
    (2, "misuse, or something could not be read or written"),
    (3, "answered, but the copybook has no item or seems to be on cards, which standard error says"),
];

/// No line of a help text is longer, in characters.
const WIDEST: usize = 120;

/// A text in lines of at most so many characters, of whole words.
fn wrapped(text: &str, width: usize) -> Vec<String> {
    let mut lines: Vec<String> = Vec::new();
    for word in text.split(' ') {
        match lines.last_mut() {
            Some(line) if line.len() + 1 + word.len() <= width => *line += &format!(" {word}"),
            _ => lines.push(word.into()),
        }
    }
    lines
}

/// What `copybook help` prints.
pub fn all() -> String {
    let widest = COMMANDS.iter().map(|c| c.name.len()).max().unwrap_or(0);
    let commands: String = COMMANDS.iter().map(|c| format!("  {:widest$}  {}\n", c.name, c.summary)).collect();
    let others: String = OTHERS.iter().map(|(words, prints)| format!("  copybook {words}: {prints}\n")).collect();
    let statuses: Vec<String> = STATUSES.iter().map(|(status, means)| format!("{status} {means}")).collect();
    let statuses = wrapped(&format!("Exit status: {}.", statuses.join(", ")), WIDEST).join("\n");
    format!("copybook: {TITLE}\n\n  copybook COMMAND [OPTIONS] [FILE]\n\n{commands}\n{others}\n{INPUT}\n{statuses}\n")
}

/// Words and what stands behind them, in lines; the later ones begin where that does.
fn hanging(words: &str, text: &str) -> String {
    let indent = words.len();
    format!("{words}{}\n", wrapped(text, WIDEST - indent).join(&format!("\n{:indent$}", "")))
}

/// What `copybook COMMAND --help` prints.
pub fn one(command: &Command) -> String {
    let widest = command.options.iter().map(|option| option.typed().len()).max().unwrap_or(0);
    let option = |option: &Opt| hanging(&format!("  {:widest$}  ", option.typed()), option.about);
    let options: String = command.options.iter().map(option).collect();
    let parts = [command.about, &options, command.notes];
    let parts: String = parts.iter().filter(|part| !part.is_empty()).map(|part| format!("\n{part}")).collect();
    hanging(&format!("copybook {} ", command.name), command.usage) + &parts
}

/// What makes a text.
type Maker = fn() -> String;

/// What tools/install asks for: `copybook help` with such a word prints it.
pub const MADE: [(&str, Maker); 4] = [("--man", man), ("--bash", bash), ("--zsh", zsh), ("--fish", fish)];

// ---------------------------------------------------------------- the man page

/// Text for roff: what it takes for its own is escaped, so each character stands for itself.
fn roff(text: &str) -> String {
    let escaped = text.replace('\\', "\\e").replace('-', "\\-").replace('\'', "\\(aq");
    let escaped = escaped.replace('^', "\\(ha").replace('~', "\\(ti").replace('`', "\\(ga");
    match escaped.starts_with('.') {
        true => format!("\\&{escaped}"),
        false => escaped,
    }
}

/// Paragraphs; one that is indented is shown as it is.
fn paragraphs(text: &str) -> String {
    let paragraph = |paragraph: &str| {
        let lines: String = paragraph.lines().map(|line| roff(line) + "\n").collect();
        match paragraph.starts_with(' ') {
            true => format!(".PP\n.nf\n{lines}.fi\n"),
            false => format!(".PP\n{lines}"),
        }
    };
    text.split("\n\n").filter(|part| !part.is_empty()).map(paragraph).collect()
}

/// A tag, and what is said of it.
fn tagged(tag: &str, says: &str) -> String {
    format!(".TP\n.B {}\n{}\n", roff(tag), roff(says))
}

fn man_command(command: &Command) -> String {
    let options: String = command.options.iter().map(|option| tagged(&option.typed(), option.about)).collect();
    let (name, usage) = (command.name, roff(command.usage));
    let (about, notes) = (paragraphs(command.about), paragraphs(command.notes));
    format!(".SS {name}\n.B copybook {name}\n{usage}\n{about}{options}{notes}")
}

/// The man page copybook.1.
fn man() -> String {
    let version = env!("CARGO_PKG_VERSION");
    let commands: String = COMMANDS.iter().map(|c| tagged(c.name, c.summary)).collect();
    let others: String = OTHERS.iter().map(|(words, prints)| tagged(words, prints)).collect();
    let each: String = COMMANDS.iter().map(man_command).collect();
    let statuses: String = STATUSES.iter().map(|(status, means)| tagged(&status.to_string(), means)).collect();
    format!(
        "\
.\\\" made by `copybook help --man`
.TH COPYBOOK 1 \"\" \"copybook {version}\" \"User Commands\"
.SH NAME
copybook \\- {}
.SH SYNOPSIS
.B copybook
COMMAND [OPTIONS] [FILE]
.SH DESCRIPTION
{commands}{others}{}.SH COMMANDS
{each}.SH EXIT STATUS
{statuses}",
        roff(TITLE),
        paragraphs(INPUT)
    )
}

// ---------------------------------------------------------------- completions

/// What may stand first: the commands, and what is there beside them.
fn firsts() -> Vec<&'static str> {
    COMMANDS.iter().map(|c| c.name).chain(["help", "--help", "--version"]).collect()
}

fn names() -> String {
    COMMANDS.iter().map(|c| c.name).collect::<Vec<&str>>().join(" ")
}

/// Each command with each of its options.
fn options() -> impl Iterator<Item = (&'static Command, &'static Opt)> {
    COMMANDS.iter().flat_map(|command| command.options.iter().map(move |option| (command, option)))
}

/// A word of a shell between apostrophes.
fn quoted(text: &str) -> String {
    format!("'{}'", text.replace('\'', "'\\''"))
}

/// What bash completes: a file where nothing else is known.
fn bash() -> String {
    let value = |(command, option): (&Command, &Opt)| match (option.value, option.words) {
        (None, _) => String::new(),
        (Some(_), []) => format!("    '{} {}') compopt +o default ;;\n", command.name, option.name),
        (Some(_), words) => format!("    '{} {}') words='{}' ;;\n", command.name, option.name, words.join(" ")),
    };
    let values: String = options().map(value).collect();
    let of_command = |command: &Command| {
        let options: String = command.options.iter().map(|option| format!("{} ", option.name)).collect();
        format!("        '{} -'*) words='{options}--help' ;;\n", command.name)
    };
    let commands: String = COMMANDS.iter().map(of_command).collect();
    format!(
        "\
# What bash completes for copybook; made by `copybook help --bash`.
_copybook() {{
    local word=${{COMP_WORDS[COMP_CWORD]}} before=${{COMP_WORDS[COMP_CWORD - 1]}} words=
    # the equals sign between an option and its value is a word of its own
    if [[ $word == = ]]; then
        word=
    elif [[ $before == = ]]; then
        before=${{COMP_WORDS[COMP_CWORD - 2]}}
    fi
    [[ $COMP_CWORD -gt 1 ]] || before=
    case \"${{COMP_WORDS[1]}} $before\" in
    *' ') words='{}' ;;
    'help help') words='{}' ;;
{values}    *)
        case \"${{COMP_WORDS[1]}} $word\" in
{commands}        esac
        ;;
    esac
    mapfile -t COMPREPLY < <(compgen -W \"$words\" -- \"$word\")
}}
complete -o default -F _copybook copybook
",
        firsts().join(" "),
        names()
    )
}

/// What zsh completes.
fn zsh() -> String {
    // a colon ends a part of a description, a bracket the whole
    let plain = |text: &str| text.replace('\\', "\\\\").replace(':', "\\:").replace('[', "\\[").replace(']', "\\]");
    let described = |name: &str, says: &str| format!("            {}\n", quoted(&format!("{name}:{}", plain(says))));
    let firsts: String = COMMANDS.iter().map(|c| described(c.name, c.summary)).collect();
    let option = |option: &Opt| {
        let value = match (option.value, option.words) {
            (None, _) => String::new(),
            (Some(value), []) => format!(":{value}: "),
            (Some(value), words) => format!(":{value}:({})", words.join(" ")),
        };
        let equals = if option.value.is_some() { "=" } else { "" };
        format!(" \\\n            {}", quoted(&format!("{}{equals}[{}]{value}", option.name, plain(option.short()))))
    };
    let of_command = |command: &Command| {
        let options: String = command.options.iter().map(option).collect();
        let help = quoted("--help[how it is used]");
        format!(
            "        {})\n            _arguments{options} \\\n            {help} '*:file:_files'\n            ;;\n",
            command.name
        )
    };
    let commands: String = COMMANDS.iter().map(of_command).collect();
    format!(
        "\
#compdef copybook
# What zsh completes for copybook; made by `copybook help --zsh`.
_copybook() {{
    local state line
    _arguments -C '(- *)--help[how it is used]' '(- *)--version[which one this is]' '1:command:->first' '*::word:->rest'
    case $state in
    first)
        local -a commands=(
{firsts}            'help:how a command is used'
        )
        _describe command commands
        ;;
    rest)
        case $words[1] in
{commands}        help)
            _arguments '1:command:({})'
            ;;
        esac
        ;;
    esac
}}
if [[ $funcstack[1] == _copybook ]]; then
    _copybook \"$@\"
else
    compdef _copybook copybook
fi
",
        names()
    )
}

/// What fish completes.
fn fish() -> String {
    let quoted = |text: &str| format!("'{}'", text.replace('\\', "\\\\").replace('\'', "\\'"));
    let first =
        |c: &Command| format!("complete -c copybook -n __fish_use_subcommand -a {} -d {}\n", c.name, quoted(c.summary));
    let firsts: String = COMMANDS.iter().map(first).collect();
    let option = |(command, option): (&Command, &Opt)| {
        let value = match (option.value, option.words) {
            (None, _) => String::new(),
            (Some(_), []) => " -x".into(),
            (Some(_), words) => format!(" -x -a {}", quoted(&words.join(" "))),
        };
        let (name, short) = (option.name.trim_start_matches('-'), quoted(option.short()));
        format!("complete -c copybook -n '__fish_seen_subcommand_from {}' -l {name}{value} -d {short}\n", command.name)
    };
    let options: String = options().map(option).collect();
    format!(
        "\
# What fish completes for copybook; made by `copybook help --fish`.
complete -c copybook -n __fish_use_subcommand -f
{firsts}complete -c copybook -n __fish_use_subcommand -a help -d 'how a command is used'
complete -c copybook -n __fish_use_subcommand -l version -d 'which one this is'
complete -c copybook -l help -d 'how it is used'
complete -c copybook -n '__fish_seen_subcommand_from help' -f -a '{}'
{options}",
        names()
    )
}
