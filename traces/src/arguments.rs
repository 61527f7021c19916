//! What is asked for on the command line.

/// The two scripts hand their own name on as the first word.
pub const USAGE: &str = "\
usage: traces/make [--strict] [TEXT [TRACE]]    a text to a trace
       traces/show [TRACE [TEXT]]               a trace to a text
- or nothing is standard input and output. With --strict a text whose trace is turned down is an error.
";

/// What is asked for; - stands for standard input or output.
#[derive(Clone, Debug, PartialEq, Eq)]
pub enum Asked {
    Help,
    Make {
        strict: bool,
        input: String,
        output: String,
    },
    Show {
        input: String,
        output: String,
    },
}

/// What the words ask for.
pub fn asked(words: &[String]) -> Result<Asked, String> {
    let Some((command, words)) = words.split_first() else {
        return Err("make or show is wanted".to_string());
    };
    let is_help = |word: &String| word == "--help" || word == "-h";
    if is_help(command) || words.iter().any(is_help) {
        return Ok(Asked::Help);
    }
    let is_option = |word: &&String| word.starts_with('-') && word.as_str() != "-";
    let (options, names): (Vec<&String>, Vec<&String>) = words.iter().partition(is_option);
    let known = command == "make";
    if let Some(other) = options.iter().find(|word| !known || **word != "--strict") {
        return Err(format!("{other} is no option of {command}"));
    }
    if names.len() > 2 {
        let count = names.len();
        return Err(format!("{count} files, but at most 2 are taken"));
    }
    let name = |place: usize| names.get(place).map_or("-", |name| name).to_string();
    let (input, output) = (name(0), name(1));
    match command.as_str() {
        "make" => Ok(Asked::Make {
            strict: !options.is_empty(),
            input,
            output,
        }),
        "show" => Ok(Asked::Show { input, output }),
        _ => Err(format!("{command} is neither make nor show")),
    }
}
