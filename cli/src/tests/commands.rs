//! The words of the command line, and what is said of those that are wrong.

use crate::options::{parse, Request, Shown, Verb};
use crate::shorten::Asked;

fn parsed(line: &str) -> Result<Request, String> {
    let words: Vec<String> = line.split_whitespace().map(str::to_string).collect();
    parse(&words).map_err(|failure| {
        assert_eq!(failure.status, 2);
        failure.messages.join("\n")
    })
}

fn says(line: &str, message: &str) {
    assert_eq!(parsed(line), Err(format!("hollchiku: {message}")));
}

#[test]
fn help_and_version() {
    for line in ["", "--help", "-h", "help"] {
        assert_eq!(parsed(line), Ok(Request::Help(None)));
    }
    assert_eq!(parsed("page --help"), Ok(Request::Help(Some(Verb::Page))));
    assert_eq!(parsed("help words"), Ok(Request::Help(Some(Verb::Words))));
    assert_eq!(parsed("--version"), Ok(Request::Version));
}

#[test]
fn a_command_with_all_it_takes() {
    let Ok(Request::Run(command)) =
        parsed("shorten --exact -o out.txt --plain output.sas sas_plan")
    else {
        panic!("this is a command");
    };
    assert_eq!(
        (command.verb, command.asked, command.shown),
        (Verb::Shorten, Asked::Exact, Shown::Plain)
    );
    assert_eq!(
        (command.file.as_str(), command.plan.as_deref()),
        ("output.sas", Some("sas_plan"))
    );
    assert_eq!(command.output.as_deref(), Some("out.txt"));
}

#[test]
fn a_file_that_looks_like_an_option() {
    let Ok(Request::Run(command)) = parsed("check -- --exact") else {
        panic!("this is a command");
    };
    assert_eq!(command.file, "--exact");
    assert!(matches!(parsed("check -"), Ok(Request::Run(command)) if command.file == "-"));
}

#[test]
fn wrong_commands() {
    says(
        "shroten a.job",
        "there is no command \"shroten\" (hollchiku --help lists them); did you mean shorten?",
    );
    says(
        "lodge a.job",
        "there is no command \"lodge\" (hollchiku --help lists them)",
    );
    says(
        "--versoin",
        "there is no option \"--versoin\" before a command; did you mean --version?",
    );
    says(
        "help lodge",
        "there is no command \"lodge\" (hollchiku --help lists them)",
    );
    says(
        "/",
        "\"/\" is a file, and a command is expected before it: hollchiku shorten /",
    );
}

#[test]
fn wrong_options() {
    says(
        "shorten --exakt a.job",
        "shorten has no option \"--exakt\"; did you mean --exact?",
    );
    says(
        "check --wide a.job",
        "check has no option \"--wide\"; hollchiku check --help lists what there is",
    );
    says(
        "shorten",
        "a file is expected: hollchiku shorten JOB (or - for standard input)",
    );
    says(
        "shorten a b c",
        "shorten takes a job, or a planner's text with its plan; \"c\" is too much",
    );
    says(
        "page a.job",
        "a file for the page is expected: hollchiku page a.job -o FILE.html",
    );
    says("words a.job -o", "a file is expected behind -o");
    says(
        "shorten --exact --greedy a.job",
        "--exact and --greedy exclude each other",
    );
    says(
        "shorten --kept --plain a.job",
        "--kept and --plain exclude each other",
    );
    let plain = "--plain goes alone or with --exact: document 01 has no lines for an elimination";
    says("shorten --plain --cheaper a.job", plain);
}
