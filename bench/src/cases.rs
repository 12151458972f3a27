// What is measured: fixed packages and runs of the second program's generator, and the same runs without their steps.
use second::gen::special::special;
use second::program::cut;
use second::readings::Settled;

pub const CHECKS: [&str; 7] =
    ["smallest", "largest-16", "largest-32", "largest-64", "largest", "largest-breaks-30", "refused-last-line"];

/// Runs, all but `full` over the largest package. NAME-start is the run NAME without its steps.
pub const RUNS: [&str; 5] = ["walk", "ping-pong", "links", "refused-step", "full"];

pub struct Case {
    pub package: Vec<u8>,
    /// None for a check.
    pub script: Option<Vec<u8>>,
}

/// Every case that can be named.
pub fn names() -> impl Iterator<Item = String> {
    let runs = RUNS.iter().flat_map(|name| [name.to_string(), start_of(name)]);
    CHECKS.iter().map(|name| name.to_string()).chain(runs.filter(|_| cfg!(feature = "runs")))
}

pub fn start_of(name: &str) -> String {
    format!("{name}-start")
}

impl Case {
    pub fn named(name: &str) -> Option<Case> {
        if !names().any(|known| known == name) {
            return None;
        }
        if let Some(input) = special(name) {
            return Some(Case::of(&input));
        }
        let whole = Case::of(&special(name.strip_suffix("-start")?)?);
        Some(Case { script: whole.script.map(|script| without_steps(&script)), ..whole })
    }

    fn of(input: &[u8]) -> Case {
        let (package, script) = input.split_at(cut(input, Settled));
        Case { package: package.to_vec(), script: (!script.is_empty()).then(|| script.to_vec()) }
    }

    pub fn bytes(&self) -> usize {
        self.package.len() + self.script.as_ref().map_or(0, Vec::len)
    }
}

/// The lines of a run text that are no steps: kinds 10 to 14, and 2F.
fn without_steps(script: &[u8]) -> Vec<u8> {
    let kept = script.split_inclusive(|&byte| byte == b'\n').filter(|line| line[0] == b'1' || *line == b"2F\n");
    kept.flatten().copied().collect()
}
