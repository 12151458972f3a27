// The command `second`: checks, runs, generates and compares.
use second::compare::{examples, generated, Difference, Subject};
use second::fuzzed::encoded;
use second::gen::cases::{batch_line, case, output, Case, Program};
use second::gen::special;
use second::product::{self, Programs};
use second::readings::{by_name, Only, Settled, Wrong, ALL};
use std::io::{BufRead, BufWriter, Read, Write};
use std::path::Path;
use std::process::ExitCode;

const USAGE: &str = "second check [--reading NAME]            a package from standard input
second run [--reading NAME]              a package and a run text from standard input
second batch [--reading NAME]            many cases: a line each, C or R, a space, the input in hexadecimal
second gen SEED COUNT                    cases in that form
second gen --hist SEED COUNT             how often they give each answer
second gen --special [NAME]              a fixed package or run, or their names
second gen --fuzz FOLDER SEED COUNT      cases and the fixed ones as files to begin fuzzing with (fuzz/)
second readings                          the wrong readings that --reading can switch on
second time                              microseconds for the fixed packages and runs
second compare WITH.. [OPTION..]         compares with the second program; on a difference, its smallest input is printed
  WITH: --check COMMAND, --run COMMAND (read standard input), --library, --reading NAME
  OPTION: --seed N, --cases N, --only check|run, --noise, --examples FOLDER";

fn main() -> ExitCode {
    let args: Vec<String> = std::env::args().skip(1).collect();
    let result = match args.first().map(String::as_str) {
        Some("check") => answer(Program::Check, &args[1..]),
        Some("run") => answer(Program::Run, &args[1..]),
        Some("batch") => batch(&args[1..]),
        Some("gen") => generate(&args[1..]),
        Some("readings") => list_readings(),
        Some("time") => {
            second::time::print_times();
            Ok(ExitCode::SUCCESS)
        }
        Some("compare") => compare(&args[1..]),
        _ => Err(USAGE.to_string()),
    };
    result.unwrap_or_else(|message| {
        eprintln!("{message}");
        ExitCode::from(2)
    })
}

type Outcome = Result<ExitCode, String>;

/// Prints; a reader that went away is no fault.
fn print(bytes: &[u8]) {
    let _ = std::io::stdout().write_all(bytes);
}

/// The value behind an option, taken out of the arguments.
fn option<'a>(args: &'a [String], name: &str) -> Option<&'a str> {
    let at = args.iter().position(|arg| arg == name)?;
    args.get(at + 1).map(String::as_str)
}

fn number(args: &[String], name: &str, otherwise: u64) -> Result<u64, String> {
    option(args, name).map_or(Ok(otherwise), |value| value.parse().map_err(|_| format!("{name} needs a number")))
}

/// The wrong reading that is asked for, if one is.
fn reading(args: &[String]) -> Result<Option<Wrong>, String> {
    option(args, "--reading").map(|name| by_name(name).ok_or(format!("there is no reading {name}"))).transpose()
}

fn output_with(case: &Case, wrong: Option<Wrong>) -> Vec<u8> {
    wrong.map_or_else(|| output(case, Settled), |wrong| output(case, Only(wrong)))
}

fn answer(program: Program, args: &[String]) -> Outcome {
    let wrong = reading(args)?;
    let mut input = Vec::new();
    std::io::stdin().lock().read_to_end(&mut input).map_err(|error| error.to_string())?;
    print(&output_with(&Case { program, input }, wrong));
    Ok(ExitCode::SUCCESS)
}

fn batch(args: &[String]) -> Outcome {
    let wrong = reading(args)?;
    let mut out = BufWriter::new(std::io::stdout().lock());
    for line in std::io::stdin().lock().lines() {
        let line = line.map_err(|error| error.to_string())?;
        let case = batch_case(&line).ok_or("a line is C or R, a space, and bytes in hexadecimal")?;
        let mut printed = output_with(&case, wrong);
        printed.iter_mut().filter(|byte| **byte == b'\n').for_each(|byte| *byte = b' ');
        printed.push(b'\n');
        out.write_all(&printed).map_err(|error| error.to_string())?;
    }
    Ok(ExitCode::SUCCESS)
}

fn batch_case(line: &str) -> Option<Case> {
    let (program, digits) = line.split_once(' ')?;
    let program = match program {
        "C" => Program::Check,
        "R" => Program::Run,
        _ => return None,
    };
    let pairs = digits.as_bytes().chunks(2);
    let input: Option<Vec<u8>> = pairs.map(|pair| u8::from_str_radix(std::str::from_utf8(pair).ok()?, 16).ok()).collect();
    Some(Case { program, input: input.filter(|_| digits.len() % 2 == 0)? })
}

fn generate(args: &[String]) -> Outcome {
    match args.first().map(String::as_str) {
        Some("--special") => match args.get(1) {
            Some(name) => print(&special::special(name).ok_or(format!("there is no fixed case {name}"))?),
            None => special::NAMES.iter().for_each(|name| println!("{name}")),
        },
        Some("--hist") => {
            let (seed, count) = seed_and_count(&args[1..])?;
            print_histogram(seed, count);
        }
        Some("--fuzz") => {
            let folder = args.get(1).ok_or("gen --fuzz needs a folder")?;
            let (seed, count) = seed_and_count(&args[2..])?;
            write_fuzz_inputs(folder.as_ref(), seed, count).map_err(|error| format!("{folder}: {error}"))?;
        }
        _ => {
            let (seed, count) = seed_and_count(args)?;
            let mut out = BufWriter::new(std::io::stdout().lock());
            for number in 0..count {
                if out.write_all(&batch_line(&case(seed, number))).is_err() {
                    break;
                }
            }
        }
    }
    Ok(ExitCode::SUCCESS)
}

fn seed_and_count(args: &[String]) -> Result<(u64, u64), String> {
    let parse = |at: usize| args.get(at).and_then(|value| value.parse().ok()).ok_or("gen needs a seed and a count".to_string());
    Ok((parse(0)?, parse(1)?))
}

fn write_fuzz_inputs(folder: &Path, seed: u64, count: u64) -> std::io::Result<()> {
    let cases = (0..count).map(|number| case(seed, number)).chain(special::cases());
    for (number, case) in cases.enumerate() {
        std::fs::write(folder.join(format!("{seed}-{number}")), encoded(&case))?;
    }
    Ok(())
}

fn print_histogram(seed: u64, count: u64) {
    let mut counts = [0u64; 256];
    for number in 0..count {
        counts[answer_number(&output(&case(seed, number), Settled)) as usize] += 1;
    }
    for (number, count) in counts.iter().enumerate().filter(|(_, count)| **count > 0) {
        println!("{number:3} {count}");
    }
}

/// The number in a printed answer line.
fn answer_number(printed: &[u8]) -> u8 {
    let digits = std::str::from_utf8(&printed[2..4]).expect("digits");
    u8::from_str_radix(digits, 16).expect("digits")
}

fn list_readings() -> Outcome {
    for (_, name, says) in ALL {
        println!("{name:26} {says}");
    }
    Ok(ExitCode::SUCCESS)
}

fn compare(args: &[String]) -> Outcome {
    let (seed, count) = (number(args, "--seed", 1)?, number(args, "--cases", 20_000)?);
    let (noisy, only) = (args.iter().any(|arg| arg == "--noise"), only_program(args)?);
    let fixed = fixed_cases(args)?;
    for (name, subject) in &subjects(args)? {
        let begin = std::time::Instant::now();
        // The fixed cases come last: they are large, and a small case shows a difference better.
        let cases = generated(seed, noisy, only).take(count as usize).chain(fixed.iter().cloned());
        match subject.first_difference(cases) {
            Ok(compared) => {
                println!("{name}: no difference in {compared} cases, seed {seed}, {:.1} s", begin.elapsed().as_secs_f64())
            }
            Err(difference) => {
                println!("{name}: a difference, seed {seed}; the smallest input found for it:");
                show(&subject.smallest(&difference.case));
                return Ok(ExitCode::FAILURE);
            }
        }
    }
    Ok(ExitCode::SUCCESS)
}

fn only_program(args: &[String]) -> Result<Option<Program>, String> {
    match option(args, "--only") {
        None => Ok(None),
        Some("check") => Ok(Some(Program::Check)),
        Some("run") => Ok(Some(Program::Run)),
        Some(other) => Err(format!("--only is check or run, not {other}")),
    }
}

fn subjects(args: &[String]) -> Result<Vec<(&'static str, Subject)>, String> {
    let command =
        |name: &str| option(args, name).map(|value| value.split_whitespace().map(String::from).collect::<Vec<String>>());
    let mut subjects = Vec::new();
    let programs = Programs { check: command("--check"), run: command("--run") };
    if programs.check.is_some() || programs.run.is_some() {
        subjects.push(("programs", Subject::Programs(programs)));
    }
    if args.iter().any(|arg| arg == "--library") {
        let library = product::linked().ok_or("this build has no library: build with --features library and DCC_LIB_DIR")?;
        subjects.push(("library", Subject::Library(library)));
    }
    if let Some(wrong) = reading(args)? {
        subjects.push(("reading", Subject::Reading(wrong)));
    }
    if subjects.is_empty() {
        Err("compare needs --check, --run, --library or --reading".to_string())
    } else {
        Ok(subjects)
    }
}

/// The fixed packages and runs, and the files of a folder of examples.
fn fixed_cases(args: &[String]) -> Result<Vec<Case>, String> {
    let mut cases = special::cases();
    if let Some(folder) = option(args, "--examples") {
        let files = examples(folder.as_ref()).map_err(|error| format!("{folder}: {error}"))?;
        cases.extend(files.into_iter().map(|(_, case)| case));
    }
    Ok(cases)
}

/// Prints a difference; an input too long to read goes into a file.
fn show(difference: &Difference) {
    let program = if difference.case.program == Program::Check { "check" } else { "run" };
    println!("--- input of {program}, {} bytes", difference.case.input.len());
    if difference.case.input.len() <= 3_000 {
        println!("{}", readable(&difference.case.input));
    }
    let file = std::env::temp_dir().join(format!("second-difference.{program}"));
    if std::fs::write(&file, &difference.case.input).is_ok() {
        println!("(in the file {})", file.display());
    }
    println!("--- second program\n{}--- product\n{}", readable(&difference.settled), readable(&difference.product));
}

fn readable(bytes: &[u8]) -> String {
    bytes.escape_ascii().to_string().replace("\\n", "\n")
}
