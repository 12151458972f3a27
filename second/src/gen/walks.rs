// Runs over a package: a start made of chance, a walk of steps that the machine takes, and a last step that it refuses.
use super::frames::{label_frame, link_frame, step_frame, Frames};
use super::packages::{Builder, Size};
use super::random::Random;
use crate::machine::Machine;
use crate::package::*;
use crate::readings::{Readings, Settled};
use crate::script::{Arguments, Label, Link, Script, Step, ABSENT, MAX_LABELS, MAX_LINKS, NO_OWNER};
use crate::trust::Trust;

/// What a walk prefers to do.
#[derive(Clone, Copy, PartialEq, Eq)]
pub enum Manner {
    Mixed,
    Deep,
    FullFrame,
    FullLinks,
    /// In a call that gives something back to a full frame.
    FullCaller,
    /// Many labels in each frame, and then a call.
    Broad,
}

pub const MANNERS: [Manner; 6] =
    [Manner::Mixed, Manner::Deep, Manner::FullFrame, Manner::FullLinks, Manner::FullCaller, Manner::Broad];

/// A broad walk calls when a frame has so many labels.
const BROAD: usize = 24;

/// A small accepted package whose methods may do much.
pub fn playground(random: &mut Random) -> Package {
    let domains = *random.pick(&[1, 1, 2, 3, 5]).expect("not empty");
    let size = Size {
        domains,
        pairs: domains * 2,
        classes: random.between(2, 8),
        supers: 3,
        fields: random.between(1, 6),
        methods: random.between(2, 8),
        params: 3,
        effects: 0,
    };
    playground_of(random, size)
}

/// An accepted package of a size, each method of which gets a handful of effects.
pub fn playground_of(random: &mut Random, size: Size) -> Package {
    let package = super::packages::accepted(random, size);
    let mut builder = Builder::over(random, package);
    let methods = builder.package.methods.len();
    for method in 0..methods {
        for _ in 0..24 {
            let Some(effect) = builder.any_effect_of(method as u8) else { continue };
            if !builder.package.effects.is_full() && builder.effect_fits(&effect) {
                builder.package.effects.push(effect);
            }
        }
    }
    builder.package
}

/// The lines of a start, apart by what they declare, so that damage can aim at them.
pub struct Start {
    pub entry: u8,
    pub objects: Vec<(u8, u8)>,
    pub links: Vec<Link>,
    pub labels: Vec<Label>,
}

impl Start {
    pub fn frames(&self, steps: &[Step]) -> Frames {
        let mut frames = vec![vec![0x10, self.entry]];
        frames.extend(self.objects.iter().map(|&(reference, class)| vec![0x11, reference, class]));
        frames.extend(self.links.iter().map(link_frame));
        frames.extend(self.labels.iter().map(label_frame));
        frames.extend(steps.iter().map(step_frame));
        frames.push(vec![0x2F]);
        frames
    }

    fn script(&self) -> Script {
        let mut script = Script::new();
        script.entry = self.entry;
        for &(reference, class) in &self.objects {
            script.pool[reference as usize] = class;
        }
        self.links.iter().for_each(|&link| script.links.push(link));
        self.labels.iter().for_each(|&label| script.labels.push(label));
        script
    }
}

/// A walk over an accepted package.
pub struct Walker<'a, R: Readings> {
    pub random: &'a mut Random,
    pub package: &'a Package,
    pub trust: &'a Trust,
    pub machine: Machine<'a, R>,
    pub start: Start,
    pub steps: Vec<Step>,
    manner: Manner,
    pub(super) effects_of: Vec<Vec<Effect>>,
}

impl<'a> Walker<'a, Settled> {
    pub fn new(random: &'a mut Random, package: &'a Package, trust: &'a Trust, manner: Manner) -> Self {
        Walker::with(random, package, trust, manner, Settled)
    }
}

impl<'a, R: Readings> Walker<'a, R> {
    pub fn with(random: &'a mut Random, package: &'a Package, trust: &'a Trust, manner: Manner, readings: R) -> Self {
        let start = any_start(random, package, trust, manner);
        Walker::from(random, package, trust, manner, start, readings)
    }

    /// A walk from a given start.
    pub fn from(
        random: &'a mut Random,
        package: &'a Package,
        trust: &'a Trust,
        manner: Manner,
        start: Start,
        readings: R,
    ) -> Self {
        let machine = Machine::start(package, trust, &start.script(), readings);
        let mut effects_of = vec![Vec::new(); package.methods.len()];
        for effect in package.effects.iter() {
            effects_of[effect.method as usize].push(*effect);
        }
        Walker { random, package, trust, machine, start, steps: Vec::new(), manner, effects_of }
    }

    /// Takes up to `count` steps; stops where nothing more is found to do.
    pub fn walk(&mut self, count: usize) {
        let mut idle = 0;
        while self.steps.len() < count && idle < 60 {
            idle = if self.advance().is_some() { 0 } else { idle + 1 };
        }
    }

    /// Tries one step, and keeps it if the machine takes it.
    pub fn advance(&mut self) -> Option<Step> {
        let step = self.likely_step()?;
        self.machine.step(&step).ok()?;
        self.steps.push(step);
        Some(step)
    }

    fn depth(&self) -> usize {
        self.machine.frames.len() - 1
    }

    /// A step that probably is taken.
    pub fn likely_step(&mut self) -> Option<Step> {
        let goes_back = match self.manner {
            Manner::Deep => 3,
            Manner::Broad => 0,
            Manner::FullCaller => 40,
            _ => 15,
        };
        if self.depth() > 0 && self.random.chance(goes_back) {
            return self.fitting_return();
        }
        if self.random.chance(if matches!(self.manner, Manner::FullFrame | Manner::Broad) { 40 } else { 20 }) {
            return self.fitting_widen();
        }
        let running = self.machine.running().method as usize;
        let effect = match self.preferred_ops() {
            Some(ops) if self.random.chance(70) => {
                let liked: Vec<Effect> =
                    self.effects_of[running].iter().filter(|effect| ops.contains(&effect.op)).copied().collect();
                *self.random.pick(&liked)?
            }
            _ => *self.random.pick(&self.effects_of[running])?,
        };
        self.fitting(effect.op, effect.target)
    }

    fn preferred_ops(&self) -> Option<&'static [u8]> {
        match self.manner {
            Manner::Mixed => None,
            Manner::Broad if self.machine.running().labels.len() < BROAD => Some(&[NEW, CHECKCAST]),
            Manner::Deep | Manner::Broad => Some(&[INVOKESTATIC, INVOKEMETHOD]),
            Manner::FullFrame | Manner::FullCaller => Some(&[NEW, CHECKCAST, GETSTATIC, GETFIELD]),
            Manner::FullLinks => Some(&[PUTSTATIC, PUTFIELD, NEW]),
        }
    }

    pub(super) fn any_label(&mut self, test: impl Fn(&Label) -> bool) -> Option<Label> {
        let fits: Vec<Label> = self.machine.running().labels.iter().filter(|label| test(label)).copied().collect();
        self.random.pick(&fits).copied()
    }

    fn any_class_over(&mut self, class: u8) -> u8 {
        let above: Vec<u8> = (0..self.package.classes.len() as u8).filter(|&other| self.trust.is_under(class, other)).collect();
        *self.random.pick(&above).expect("a class is under itself")
    }

    pub(super) fn fitting_widen(&mut self) -> Option<Step> {
        let label = self.any_label(|_| true)?;
        let to = self.any_class_over(label.class);
        Some(Step::Widen { r: label.reference, to })
    }

    pub(super) fn fitting_return(&mut self) -> Option<Step> {
        let frame = self.machine.running();
        let awaited = frame.awaited;
        if awaited == NONE {
            return Some(Step::Return { r: NONE });
        }
        let label = self.any_label(|label| label.class == awaited)?;
        Some(Step::Return { r: label.reference })
    }

    /// A step of an op on a number, with references that fit as far as the state has them.
    pub fn fitting(&mut self, op: u8, named: u8) -> Option<Step> {
        let (package, trust) = (self.package, self.trust);
        match op {
            NEW => Some(Step::New { r: self.free_reference()?, of: named }),
            CHECKCAST => {
                let pool = self.machine.pool;
                let label = self.any_label(|label| trust.is_under(pool[label.reference as usize], named))?;
                Some(Step::Cast { r: label.reference, to: named })
            }
            GETSTATIC | GETFIELD => {
                let link = self.fitting_link(&package.fields[named as usize])?;
                Some(if op == GETSTATIC {
                    Step::GetStatic { field: named, q: link.target }
                } else {
                    Step::GetField { field: named, p: link.owner, q: link.target }
                })
            }
            PUTSTATIC | PUTFIELD => {
                let field = package.fields[named as usize];
                let q = self.any_label(|label| label.class == field.of)?.reference;
                if op == PUTSTATIC {
                    return Some(Step::PutStatic { field: named, q });
                }
                let p = self.any_label(|label| trust.is_under(label.class, field.class))?.reference;
                Some(Step::PutField { field: named, p, q })
            }
            INVOKESTATIC => Some(Step::InvokeStatic { n: named, args: self.fitting_arguments(named)? }),
            _ => self.fitting_call(named),
        }
    }

    fn free_reference(&mut self) -> Option<u8> {
        let first = self.random.below(255);
        (0..255).map(|offset| ((first + offset) % 255) as u8).find(|&r| self.machine.pool[r as usize] == ABSENT)
    }

    fn fitting_link(&mut self, field: &Field) -> Option<Link> {
        let frame = self.machine.running();
        let held = |link: &Link| {
            link.owner == NO_OWNER
                || frame.labels.iter().any(|label| label.reference == link.owner && self.trust.is_under(label.class, link.class))
        };
        let fits = |link: &&Link| {
            (link.owner == NO_OWNER) == field.is_static && link.class == field.class && link.of == field.of && held(link)
        };
        let links: Vec<Link> = self.machine.links.iter().filter(fits).copied().collect();
        self.random.pick(&links).copied()
    }

    pub(super) fn fitting_arguments(&mut self, n: u8) -> Option<Arguments> {
        let method = self.package.methods[n as usize];
        let mut args = Arguments { of: [0; 6], count: method.param_count };
        for (place, &param) in method.params().iter().enumerate() {
            args.of[place] = self.any_label(|label| label.class == param)?.reference;
        }
        Some(args)
    }

    fn fitting_call(&mut self, n: u8) -> Option<Step> {
        let (package, trust) = (self.package, self.trust);
        let called = package.methods[n as usize];
        let r0 = self.any_label(|label| trust.is_under(label.class, called.class))?.reference;
        let own = self.machine.pool[r0 as usize];
        let runs = |v: u8| (v == n || package.overrides(trust, v, n)) && trust.is_under(own, package.methods[v as usize].class);
        let candidates: Vec<u8> = (0..package.methods.len()).map(|v| v as u8).filter(|&v| runs(v)).collect();
        let v = *self.random.pick(&candidates)?;
        Some(Step::InvokeMethod { n, v, r0, args: self.fitting_arguments(n)? })
    }
}

/// A start that is admitted.
pub fn any_start(random: &mut Random, package: &Package, trust: &Trust, manner: Manner) -> Start {
    let entry = random.below(package.methods.len()) as u8;
    let mut start = Start { entry, objects: Vec::new(), links: Vec::new(), labels: Vec::new() };
    let objects = match manner {
        Manner::FullFrame | Manner::FullCaller => random.between(8, 40),
        Manner::FullLinks => random.between(8, 100),
        _ if random.chance(2) => random.between(200, 255),
        _ => random.below(14),
    };
    add_objects(random, package, &mut start, objects);
    // Where a set is to be full, its items must differ; elsewhere repeated lines are wanted.
    let (links, distinct) = match manner {
        Manner::FullLinks if random.chance(60) => (MAX_LINKS, true),
        Manner::FullLinks => (random.between(240, MAX_LINKS), false),
        _ => (random.below(16), false),
    };
    add_links(random, package, trust, &mut start, links, distinct);
    let full = matches!(manner, Manner::FullFrame | Manner::FullCaller) && random.chance(70);
    let labels = if full { MAX_LABELS } else { random.below(14) };
    add_labels(random, package, trust, &mut start, labels, full);
    start
}

fn add_objects(random: &mut Random, package: &Package, start: &mut Start, count: usize) {
    let mut references: Vec<u8> = (0..255).collect();
    random.shuffle(&mut references);
    for &reference in references.iter().take(count) {
        start.objects.push((reference, random.below(package.classes.len()) as u8));
    }
}

/// Links with targets and owners that fit; static ones first, as their kind asks.
fn add_links(random: &mut Random, package: &Package, trust: &Trust, start: &mut Start, count: usize, distinct: bool) {
    let objects = start.objects.clone();
    let under = |class: u8| -> Vec<u8> {
        objects.iter().filter(|object| trust.is_under(object.1, class)).map(|object| object.0).collect()
    };
    let fitting: Vec<(Field, Vec<u8>, Vec<u8>)> =
        package.fields.iter().map(|&field| (field, under(field.class), under(field.of))).collect();
    let mut tries = 6 * count;
    while start.links.len() < count && tries > 0 {
        tries -= 1;
        let Some((field, owners, targets)) = random.pick(&fitting) else { return };
        let Some(&target) = random.pick(targets) else { continue };
        let owner = if field.is_static { Some(NO_OWNER) } else { random.pick(owners).copied() };
        let Some(owner) = owner else { continue };
        let link = Link { owner, class: field.class, of: field.of, target };
        if !(distinct && start.links.contains(&link)) {
            start.links.push(link);
        }
    }
    start.links.sort_by_key(|link| link.owner != NO_OWNER);
}

fn add_labels(random: &mut Random, package: &Package, trust: &Trust, start: &mut Start, count: usize, distinct: bool) {
    let mut tries = 4 * count;
    while start.labels.len() < count && tries > 0 {
        tries -= 1;
        let Some(&(reference, class)) = random.pick(&start.objects) else { return };
        let above: Vec<u8> = (0..package.classes.len() as u8).filter(|&other| trust.is_under(class, other)).collect();
        let class = *random.pick(&above).expect("a class is under itself");
        let label = Label { reference, class };
        if !(distinct && start.labels.contains(&label)) {
            start.labels.push(label);
        }
    }
}
