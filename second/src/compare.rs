// Drives the product and the second program over the same cases, side by side.
use crate::gen::cases::{case, noise_case, output, Case, Program};
use crate::library;
use crate::product::{Library, Programs};
use crate::readings::{Only, Settled, Wrong};
use crate::shrink::shrink;
use std::path::Path;
use std::time::Duration;

/// Generated cases without end: of all sorts or, if `noisy`, bytes and frames without an aim; of one program only, if one is named.
pub fn generated(seed: u64, noisy: bool, only: Option<Program>) -> impl Iterator<Item = Case> {
    let make = if noisy { noise_case } else { case };
    (0..).map(move |number| make(seed, number)).filter(move |case| only.is_none_or(|program| program == case.program))
}

/// What is compared with the second program.
pub enum Subject {
    Programs(Programs),
    Library(Library),
    /// The second program itself with a wrong reading: shows that a comparison finds something.
    Reading(Wrong),
}

/// Both outputs for one case, as text.
pub struct Difference {
    pub case: Case,
    pub settled: Vec<u8>,
    pub product: Vec<u8>,
}

/// How long a smaller case is looked for.
const SHRINKING: Duration = Duration::from_secs(20);

impl Subject {
    /// Both outputs if they differ; None if they agree or the subject has no such program.
    pub fn difference(&self, case: &Case) -> Option<Difference> {
        let (settled, product) = match self {
            Subject::Programs(programs) => (output(case, Settled), programs.output(case.program, &case.input)?),
            Subject::Reading(wrong) => (output(case, Settled), output(case, Only(*wrong))),
            Subject::Library(library) => return library::difference(library, case),
        };
        (settled != product).then(|| Difference { case: case.clone(), settled, product })
    }

    /// The smallest case that can be found to differ, starting from one that does.
    pub fn smallest(&self, case: &Case) -> Difference {
        let small = shrink(case, SHRINKING, &mut |smaller| self.difference(smaller).is_some());
        self.difference(&small).expect("a shrunk case still differs")
    }

    /// The first difference among the cases, or how many were compared.
    pub fn first_difference(&self, cases: impl Iterator<Item = Case>) -> Result<u64, Difference> {
        let mut compared = 0;
        for case in cases {
            if let Some(difference) = self.difference(&case) {
                return Err(difference);
            }
            compared += self.has(case.program) as u64;
        }
        Ok(compared)
    }

    /// Whether there is something to compare for this program.
    pub fn has(&self, program: Program) -> bool {
        match (self, program) {
            (Subject::Programs(programs), Program::Check) => programs.check.is_some(),
            (Subject::Programs(programs), Program::Run) => programs.run.is_some(),
            (Subject::Library(_), Program::Check) => true,
            (Subject::Library(library), Program::Run) => library.run.is_some(),
            (Subject::Reading(_), _) => true,
        }
    }
}

/// The inputs of a folder of examples: NAME.package for `check`, NAME.run for `run`.
pub fn examples(folder: &Path) -> std::io::Result<Vec<(String, Case)>> {
    let mut found = Vec::new();
    for entry in std::fs::read_dir(folder)? {
        let path = entry?.path();
        let program = match path.extension().and_then(|extension| extension.to_str()) {
            Some("package") => Program::Check,
            Some("run") => Program::Run,
            _ => continue,
        };
        found.push((path.display().to_string(), Case { program, input: std::fs::read(&path)? }));
    }
    found.sort_by(|one, other| one.0.cmp(&other.0));
    Ok(found)
}
