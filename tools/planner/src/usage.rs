//! The commands, and what `--help` and `--version` say.

pub struct Command {
    pub name: &'static str,
    /// Behind the name, as the user writes it.
    pub form: &'static str,
    /// How many files it takes at least and at most.
    pub files: (usize, usize),
    /// An option that takes a value has the value's name behind it.
    pub options: &'static [&'static str],
    /// The first line stands in the list of all commands.
    pub help: &'static str,
}

const MANY: usize = usize::MAX;

pub const COMMANDS: [Command; 10] = [
    Command {
        name: "plan",
        form: "FILE|- [--json] [--svg FILE] [--certificate FILE] [--nths N]",
        files: (1, 1),
        options: &["--json", "--svg FILE", "--certificate FILE", "--nths N"],
        help: "the least ratio of a sheet, a schedule that has it or comes near it, and how far a run that breaks off undercuts it
  --json               one line of JSON in place of the text
  --svg FILE           the schedule as a chart, too
  --certificate FILE   all that shows the ratio to be the least, too, for `planner verify`
  --nths N             where the ratio is only approached: a run in Nths of a unit along the same regions, N from 1 to 1000",
    },
    Command {
        name: "check",
        form: "FILE|-",
        files: (1, 1),
        options: &[],
        help: "whether a sheet is in order; of a description every mistake, up to ten, with its line and what was meant",
    },
    Command {
        name: "verify",
        form: "FILE CERTIFICATE",
        files: (2, 2),
        options: &[],
        help: "whether a certificate shows its ratio to be the least of the sheet, by single steps; which rule fails first if not
  CERTIFICATE   as `planner plan --certificate` writes it",
    },
    Command {
        name: "replay",
        form: "FILE RUN",
        files: (2, 2),
        options: &[],
        help: "a run replayed on a sheet: what its loop costs and earns
  RUN   lines `nths N`, `delay D` in nths, `edge NAME`, and `loop` where the loop begins",
    },
    Command {
        name: "draw",
        form: "FILE|- [--svg FILE]",
        files: (1, 1),
        options: &["--svg FILE"],
        help: "the automaton for Graphviz, the edges of the cycle in bold
  --svg FILE   drawn by `dot`, where that is installed",
    },
    Command {
        name: "batch",
        form: "FILE..|DIR|- [--jobs N]",
        files: (1, MANY),
        options: &["--jobs N"],
        help: "many sheets, a line of JSON for each in the order given, and at the end a count by answer on standard error
  FILE..     descriptions or sheets
  DIR        the files in it that end in .txt or .sheet, by name
  -          sheets in hexadecimal, a line each, from standard input
  --jobs N   how many are planned at a time, 1 to 256; as many as there are cores where it is left out",
    },
    Command { name: "encode", form: "[FILE|-]", files: (0, 1), options: &[], help: "a description to a sheet's bytes" },
    Command { name: "decode", form: "[FILE|-]", files: (0, 1), options: &[], help: "a sheet's bytes to a description, with names made up" },
    Command { name: "hex", form: "[FILE|-]", files: (0, 1), options: &[], help: "a description to a sheet's bytes in hexadecimal" },
    Command { name: "unhex", form: "[FILE|-]", files: (0, 1), options: &[], help: "the same as decode, from hexadecimal" },
];

const FILE: &str = "FILE is a description or a sheet's bytes, told by content; - is standard input.";

const STATUSES: &str = "
exit status:
  0   planned, checked, verified
  1   refused: the answer stands on standard output, that of encode, decode, hex and unhex on standard error
  2   wrong usage
  3   mistakes in a description, a run or a certificate, told as FILE:LINE: on standard error
  4   a file or stream that cannot be read or written
  70  two ways to the same figure differ, and no schedule is printed
";

pub fn version() -> String {
    format!("planner {}, reads sheets of editions 1 and 2\n", env!("CARGO_PKG_VERSION"))
}

pub fn all() -> String {
    let mut text = "usage:\n".to_string();
    for command in &COMMANDS {
        let short = command.help.lines().next().unwrap_or("");
        text += &format!("  planner {} {}\n      {short}\n", command.name, command.form);
    }
    text + "  planner --version\n  planner --help, planner COMMAND --help\n\n" + FILE + "\n" + STATUSES
}

/// What FILE is: told by content, but for those that turn one form into another.
fn read(command: &Command) -> &'static str {
    match command.name {
        "decode" => "FILE is a sheet's bytes; it is standard input where it is - or left out.",
        "unhex" => "FILE is hexadecimal digits; it is standard input where it is - or left out.",
        "encode" | "hex" => "FILE is a description or a sheet's bytes, told by content; it is standard input where it is - or left out.",
        _ => FILE,
    }
}

pub fn one(command: &Command) -> String {
    format!("usage: planner {} {}\n\n{}\n\n{}\n{STATUSES}", command.name, command.form, command.help, read(command))
}
