//! Measures that are taken of whole processes from outside, on each family's longest plan with its
//! own steps in front: instructions, and the least stack. Of texts for the translator the
//! instructions are counted too, and of licences the stack is sought on their own plans too.

use super::plans::{name, HardPlan};
use super::texts::LongText;
use super::timed::unmarked;
use super::times::inputs_for_licences;
use super::{table, Measured, Side, SIDES};
use crate::cases::Service;
use crate::comparison::programs::{Built, LICENSE};
use crate::makers::families::FAMILIES;
use crate::rules::{MAX_STEPS, MAX_UNMARKED};
use std::env;
use std::ffi::OsString;
use std::io::Write;
use std::process::{Command, Stdio};

/// The cells of a row behind those that tell what is measured, or what went wrong.
type Cells = Result<Vec<String>, String>;

/// Prints a table with a row for each, and answers whether everything could be measured.
fn print_table<T>(
    title: &str,
    heads: &[&str],
    all: impl IntoIterator<Item = T>,
    told: impl Fn(&T) -> Vec<String>,
    cells: impl Fn(&T) -> Cells,
) -> bool {
    println!("{title}:\n");
    table::print_head(heads);
    all.into_iter().all(|it| {
        let (told, cells) = (told(&it), cells(&it));
        match &cells {
            Ok(cells) => table::print_row(&[&told[..], cells].concat()),
            Err(error) => println!("{}: {error}", told.join(" ")),
        }
        cells.is_ok()
    })
}

/// A table with a row for each family.
fn print_families(measure: &str, columns: &[&str], cells: impl Fn(&HardPlan) -> Cells) -> bool {
    let title = format!(
        "{measure} at {MAX_STEPS} steps, with the {MAX_UNMARKED} beside the chain in front"
    );
    let heads = [&["Family", "Unmarked", "Library", "Rust"], columns].concat();
    let told = |plan: &HardPlan| {
        let list = plan.make();
        vec![name(plan.family), unmarked(&list.task.words(), &list.plan)]
    };
    let plans = FAMILIES.map(HardPlan::longest_in_front);
    print_table(&title, &heads, plans, told, cells)
}

/// The command that runs one side one time.
fn once(side: Side, measured: Measured) -> Result<Vec<OsString>, String> {
    let program = env::current_exe().map_err(|error| error.to_string())?;
    let mut command = vec![program.into_os_string(), "--once".into(), name(side).into()];
    command.extend(measured.arguments().into_iter().map(OsString::from));
    Ok(command)
}

/// Prints the instructions of the exact reduction and of reading texts, counted by valgrind: a
/// figure that others on the machine don't change.
pub fn count_instructions() -> bool {
    let of_plans = print_families("Instructions", &["Ratio"], |&plan| {
        instructions_of_both(Service::Exact, Measured::Plan(plan))
    });
    of_plans
        && print_table(
            "\nInstructions of reading a text for the translator",
            &["Text of", "Bytes", "Library", "Rust", "Ratio"],
            LongText::all(),
            |text| text.arguments().to_vec(),
            |&text| instructions_of_both(Service::Translate, Measured::Text(text)),
        )
}

fn instructions_of_both(service: Service, measured: Measured) -> Cells {
    let [library, rust] = SIDES.map(|side| instructions(side, measured));
    let (library, rust) = (library?, rust?);
    let ratio = table::ratio(service, library as f64 / rust as f64);
    Ok(vec![library.to_string(), rust.to_string(), ratio])
}

/// The instructions between the call of the service and its return.
fn instructions(side: Side, measured: Measured) -> Result<u64, String> {
    let function = match (side, measured) {
        (Side::Library, Measured::Plan(_)) => "hollchiku_exact",
        (Side::Rust, Measured::Plan(_)) => "*search::exact*",
        (Side::Library, Measured::Text(_)) => "hollchiku_translate",
        (Side::Rust, Measured::Text(_)) => "*translator::translate*",
    };
    let output = Command::new("valgrind")
        .args(["--tool=callgrind", "--callgrind-out-file=/dev/null"])
        .arg(format!("--toggle-collect={function}"))
        .args(once(side, measured)?)
        .output()
        .map_err(|error| format!("valgrind: {error}"))?;
    let report = String::from_utf8_lossy(&output.stderr);
    let mut lines = report.lines();
    let collected = lines.find_map(|line| line.split_once("Collected : "));
    let count = collected.and_then(|(_, count)| count.trim().parse().ok());
    let failed = || format!("valgrind counted nothing:\n{report}");
    count.filter(|_| output.status.success()).ok_or_else(failed)
}

/// Limits of the stack are whole pages.
const PAGE_KIB: usize = 4;
/// What a process gets by default.
const MOST_PAGES: usize = 2_048;
/// Sets the limit that stands in front, and runs what stands behind it.
const UNDER_LIMIT: &str = "ulimit -c 0 && ulimit -s \"$0\" && exec \"$@\"";

/// Prints the least stack that the exact reduction and the built programs run in: each is started
/// anew under a limit, which is sought by halves between one that is too low and one that is enough.
pub fn measure_stack(built: &[Built]) -> bool {
    let names: Vec<&str> = built.iter().map(|built| built.program.name).collect();
    let of_families = print_families("Least stack in KiB", &names, |plan| {
        let mut cells = Vec::new();
        for side in SIDES {
            cells.push(least_stack(&once(side, Measured::Plan(*plan))?, &[])?);
        }
        let bytes = plan.make().input_bytes();
        for built in built {
            cells.push(least_stack_of(built, &bytes)?);
        }
        Ok(cells)
    });
    let mut licensing = built.iter().filter(|it| it.program.name == LICENSE);
    of_families
        && licensing.all(|built| {
            // The plans that licences are timed on take it further than those of the families.
            print_table(
                "\nLeast stack in KiB of the program that licenses",
                &["Plan", "Stack"],
                inputs_for_licences(),
                |input| vec![input.name.clone()],
                |input| Ok(vec![least_stack_of(built, &input.bytes)?]),
            )
        })
}

fn least_stack_of(built: &Built, input: &[u8]) -> Result<String, String> {
    least_stack(&[built.path.clone().into_os_string()], input)
}

/// The least limit, in KiB, under which the command answers.
fn least_stack(command: &[OsString], input: &[u8]) -> Result<String, String> {
    let answers = |pages| answers(command, input, pages).map_err(|error| error.to_string());
    let (mut too_low, mut enough) = (0, MOST_PAGES);
    if !answers(enough)? {
        return Err("no answer under any limit".to_string());
    }
    while too_low + 1 < enough {
        let middle = (too_low + enough) / 2;
        match answers(middle)? {
            true => enough = middle,
            false => too_low = middle,
        }
    }
    Ok(table::stack(enough * PAGE_KIB))
}

fn answers(command: &[OsString], input: &[u8], pages: usize) -> std::io::Result<bool> {
    let mut child = Command::new("sh")
        .args(["-c", UNDER_LIMIT, &(pages * PAGE_KIB).to_string()])
        .args(command)
        .stdin(Stdio::piped())
        .stdout(Stdio::null())
        .stderr(Stdio::null())
        .spawn()?;
    // A process that ends without its input makes the write fail.
    let _ = child.stdin.take().map(|mut pipe| pipe.write_all(input));
    Ok(child.wait()?.success())
}
