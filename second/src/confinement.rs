// Demand 3 tried from outside: watches a run for a domain that reaches what the confinement theorem denies it.
use crate::machine::{Frame, Machine};
use crate::package::{Package, MAX_DOMAINS};
use crate::readings::Readings;
use crate::script::Link;
use crate::trust::{Classes, Trust};

/// The three ways in which a domain may reach an object at a class.
#[derive(Clone, Copy, PartialEq, Eq, Debug)]
pub enum Way {
    /// It did at the start.
    Before,
    /// The class's domain is dominated by it: no capability.
    NoCapability,
    /// It and the class's domain are both dominated by the entry method's label.
    Granted,
}

pub const WAYS: [Way; 3] = [Way::Before, Way::NoCapability, Way::Granted];

/// A domain reaches an object at a class, and no way allows it.
#[derive(Clone, Copy, PartialEq, Eq, Debug)]
pub struct Breach {
    pub domain: u8,
    pub reference: u8,
    pub class: u8,
}

/// What each domain may reach in a run that began as this one did.
pub struct Watch<'a> {
    package: &'a Package,
    trust: &'a Trust,
    /// For each domain the classes at which it may reach anything.
    allowed: [Classes; MAX_DOMAINS],
    /// For each domain and reference the classes at which it was reached at the start.
    before: Vec<[Classes; 256]>,
}

impl<'a> Watch<'a> {
    /// Begins to watch a machine at its start; one of the ways may be left out.
    pub fn begin<R: Readings>(package: &'a Package, trust: &'a Trust, start: &Machine<R>, without: Option<Way>) -> Self {
        let label = package.methods[start.running().method as usize].label;
        let mut watch = Watch { package, trust, allowed: [0; MAX_DOMAINS], before: vec![[0; 256]; package.domains] };
        for domain in 0..package.domains as u8 {
            watch.allowed[domain as usize] = watch.allowed_to(domain, label, without);
        }
        if without != Some(Way::Before) {
            watch.note_start(start);
        }
        watch
    }

    fn allowed_to(&self, domain: u8, label: u8, without: Option<Way>) -> Classes {
        let mut allowed = 0;
        for (number, class) in self.package.classes.iter().enumerate() {
            let no_capability = self.trust.dominated(class.domain, domain) && without != Some(Way::NoCapability);
            let granted =
                self.trust.dominated(class.domain, label) && self.trust.dominated(domain, label) && without != Some(Way::Granted);
            allowed |= ((no_capability || granted) as Classes) << number;
        }
        allowed
    }

    fn note_start<R: Readings>(&mut self, start: &Machine<R>) {
        let domain = self.domain_of(start.running());
        for label in start.running().labels.iter() {
            self.before[domain as usize][label.reference as usize] |= self.trust.supers[label.class as usize];
        }
        for link in start.links.iter() {
            self.before[self.trust.home(link.class) as usize][link.target as usize] |= self.trust.supers[link.of as usize];
        }
    }

    fn domain_of(&self, frame: &Frame) -> u8 {
        self.trust.home(self.package.methods[frame.method as usize].class)
    }

    /// A breach in what one step can have changed: the running frame and the last link.
    pub fn breach_of_step<R: Readings>(&self, machine: &Machine<R>) -> Option<Breach> {
        self.frame_breach(machine.running()).or_else(|| machine.links.last().and_then(|link| self.link_breach(link)))
    }

    /// A breach anywhere in the state.
    pub fn breach<R: Readings>(&self, machine: &Machine<R>) -> Option<Breach> {
        let frames = machine.frames.iter().find_map(|frame| self.frame_breach(frame));
        frames.or_else(|| machine.links.iter().find_map(|link| self.link_breach(link)))
    }

    fn frame_breach(&self, frame: &Frame) -> Option<Breach> {
        let domain = self.domain_of(frame);
        frame.labels.iter().find_map(|label| self.holding_breach(domain, label.reference, label.class))
    }

    fn link_breach(&self, link: &Link) -> Option<Breach> {
        self.holding_breach(self.trust.home(link.class), link.target, link.of)
    }

    /// What is held at a class is reached at every class above it.
    fn holding_breach(&self, domain: u8, reference: u8, class: u8) -> Option<Breach> {
        let may = self.allowed[domain as usize] | self.before[domain as usize][reference as usize];
        let denied = self.trust.supers[class as usize] & !may;
        (denied != 0).then(|| Breach { domain, reference, class: denied.trailing_zeros() as u8 })
    }
}
