//! The help texts, made from what the commands take.
use crate::arguments::{CommandOption, Form};

/// The help of the whole command.
pub fn overview(forms: &[&Form]) -> String {
    let widest = forms.iter().map(|form| form.name.len()).max().unwrap_or(0);
    let mut text = String::from(
        "pmn: masks in PMN files, folded, shown and compared by the proved library\n\n    pmn COMMAND ..          pmn COMMAND --help\n\n",
    );
    for form in forms {
        text.push_str(&format!("    {:widest$}  {}\n", form.name, form.summary));
    }
    text.push_str(
        "\nThe file - is standard input, and -o - is standard output. Numbers are decimal, or 0x and hexadecimal, or 0b and binary.\n\
         A file that is there already is written over only with --force.\n\
         Status: 0 done, 1 refused or unlike (or a file that can't be read or written), 2 wrong use.\n",
    );
    text
}

/// The help of one command.
pub fn of(form: &Form) -> String {
    let mut text = format!("pmn {} {}\n\n{}\n", form.name, form.usage, form.about);
    let options: Vec<&CommandOption> = form.every_option().collect();
    let widest = options.iter().map(|option| shown(option).len()).max().unwrap_or(0);
    if !options.is_empty() {
        text.push('\n');
    }
    for option in options {
        text.push_str(&format!("    {:widest$}  {}\n", shown(option), option.about));
    }
    text
}

fn shown(option: &CommandOption) -> String {
    if option.value.is_empty() {
        return option.name.to_string();
    }
    format!("{} {}", option.name, option.value)
}
