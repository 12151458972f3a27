// Packages that break exactly one rule: an accepted one with a single thing added that the rule forbids.
use super::packages::{accepted, no_method, reorder, Builder, Size};
use super::random::Random;
use crate::package::*;

pub const RULES: [u8; 13] = [10, 11, 12, 21, 22, 23, 24, 25, 26, 27, 28, 29, 30];

/// How often a package is begun anew when nothing in it can break the rule.
const TRIES: usize = 60;

/// A package that breaks the rule and no other; None where chance found none.
pub fn breaking(random: &mut Random, rule: u8) -> Option<Package> {
    for attempt in 0..TRIES {
        let size = if attempt == 0 && random.chance(5) { Size::any(random) } else { roomy(random) };
        let package = accepted(random, size);
        if package.classes.is_empty() {
            continue;
        }
        let mut builder = Builder::over(random, package);
        if builder.break_rule(rule).is_none() {
            continue;
        }
        let package = builder.package;
        let package = reorder(random, &package);
        if breaks_only(&package, rule) {
            return Some(package);
        }
    }
    None
}

/// Small, but with several domains and classes, so that there is something to break.
fn roomy(random: &mut Random) -> Size {
    let size = Size::small(random);
    Size {
        domains: size.domains.max(3),
        pairs: size.pairs.max(3),
        classes: size.classes.max(4),
        methods: size.methods.max(3),
        ..size
    }
}

/// Large packages are taken at their first broken rule: looking at all of them takes long.
fn breaks_only(package: &Package, rule: u8) -> bool {
    let trust = crate::trust::Trust::of(package, crate::readings::Settled);
    if package.classes.len() > 24 {
        return crate::rules::answer(package, &trust).number == rule;
    }
    let plain = crate::plain::Plain { package, trust: &trust, readings: crate::readings::Settled };
    plain.broken_rules() == [rule]
}

impl Builder<'_> {
    /// Adds one thing that breaks the rule.
    fn break_rule(&mut self, rule: u8) -> Option<()> {
        match rule {
            10 => self.close_circle(),
            11 => self.add_unlike(),
            12 => self.add_double(),
            21 => self.add_untrusting(),
            22 => self.add_between(),
            23..=25 => self.add_overriding(rule),
            _ => self.add_bad_effect(rule),
        }
    }

    /// Turns round a pair that holds, listed or not.
    fn close_circle(&mut self) -> Option<()> {
        if self.package.pairs.is_full() {
            return None;
        }
        for _ in 0..40 {
            let (below, above) = (self.any_domain(), self.any_domain());
            if below != above && self.trust.dominated(below, above) {
                self.package.pairs.push((above, below));
                return Some(());
            }
        }
        None
    }

    fn any_instance(&mut self) -> Option<Method> {
        let instances: Vec<Method> = self.package.methods.iter().filter(|method| !method.is_static).copied().collect();
        self.random.pick(&instances).copied().filter(|_| !self.package.methods.is_full())
    }

    /// A method of a slot that is there, with another signature.
    fn add_unlike(&mut self) -> Option<()> {
        let like = self.any_instance()?;
        let mut method = Method { class: self.any_class(), ..like };
        match self.random.below(3) {
            0 => method.result = if like.result == NONE { self.any_class() } else { NONE },
            1 if like.param_count > 0 => method.params[self.random.below(like.param_count as usize)] = self.any_class(),
            1 => method.result = self.any_class(),
            _ if like.param_count < 6 => {
                method.params[like.param_count as usize] = self.any_class();
                method.param_count += 1;
            }
            _ => {
                method.params[5] = NONE;
                method.param_count = 5;
            }
        }
        self.package.methods.push(method);
        Some(())
    }

    fn add_double(&mut self) -> Option<()> {
        let method = self.any_instance()?;
        self.package.methods.push(method);
        Some(())
    }

    /// A class under one that does not trust it; sometimes the one above stands two steps up.
    fn add_untrusting(&mut self) -> Option<()> {
        if self.package.classes.is_full() {
            return None;
        }
        for _ in 0..40 {
            let (above, domain) = (self.any_class(), self.any_domain());
            if !self.trust.dominated(self.trust.home(above), domain) {
                let extra = self.any_class();
                let count = self.random.between(1, 2) as u8;
                self.package.classes.push(Class { domain, supers: [above, extra, 0, 0], super_count: count });
                return Some(());
            }
        }
        None
    }

    /// A class under one or two others whose suspicion it does not inherit.
    fn add_between(&mut self) -> Option<()> {
        if self.package.classes.is_full() {
            return None;
        }
        for _ in 0..60 {
            let (one, other, domain) = (self.any_class(), self.any_class(), self.any_domain());
            let trusted = |class: u8| self.trust.dominated(self.trust.home(class), domain);
            if !trusted(one) || !trusted(other) {
                continue;
            }
            let meets = self.plain().suspicious(one, other);
            let loses = (0..self.package.classes.len() as u8).any(|third| self.plain().suspicious(one, third) && trusted(third));
            if meets || loses {
                let count = if meets { 2 } else { 1 };
                self.package.classes.push(Class { domain, supers: [one, other, 0, 0], super_count: count });
                return Some(());
            }
        }
        None
    }

    /// Two methods of a new slot, one overriding the other against the rule, and now and then a third between them.
    fn add_overriding(&mut self, rule: u8) -> Option<()> {
        if self.package.methods.len() + 2 > MAX_METHODS {
            return None;
        }
        let slot = (1..=0xFFFF).find(|&slot| self.package.methods.iter().all(|method| method.slot != slot))?;
        for _ in 0..200 {
            let (class, above) = (self.any_class(), self.any_class());
            if class == above || !self.trust.is_under(class, above) {
                continue;
            }
            let like = Method { slot, ..self.any_signature() };
            let overrider = Method { class, label: self.any_domain(), ..like };
            let overridden = Method { class: above, label: self.any_domain(), ..like };
            let plain = self.plain();
            if (23..=25).all(|other| plain.methods_break(other, &overrider, &overridden) == (other == rule)) {
                self.package.methods.push(overrider);
                self.package.methods.push(overridden);
                self.add_third(like);
                return Some(());
            }
        }
        None
    }

    fn add_third(&mut self, like: Method) {
        if self.random.chance(40) && !self.package.methods.is_full() {
            let third = Method { class: self.any_class(), label: self.any_domain(), ..like };
            if self.package.methods.iter().all(|other| other.slot != third.slot || other.class != third.class) {
                self.package.methods.push(third);
            }
        }
    }

    fn any_signature(&mut self) -> Method {
        let mut method = no_method();
        method.result = if self.random.chance(40) { NONE } else { self.any_class() };
        method.param_count = self.random.below(3) as u8;
        for place in 0..method.param_count as usize {
            method.params[place] = self.any_class();
        }
        method
    }

    /// An effect that breaks just this rule; where the package has none, a method is added that makes one likely.
    fn add_bad_effect(&mut self, rule: u8) -> Option<()> {
        if self.package.effects.is_full() {
            return None;
        }
        for attempt in 0..200 {
            if attempt % 20 == 19 && !self.package.methods.is_full() {
                let (method, label) = (self.method(2), self.any_domain());
                self.package.methods.push(Method { is_static: true, slot: 0, label, ..method });
            }
            let Some(effect) = self.any_effect() else { continue };
            let plain = self.plain();
            if (26..=30).all(|other| plain.effect_breaks(other, &effect).is_some() == (other == rule)) {
                self.package.effects.push(effect);
                return Some(());
            }
        }
        None
    }
}
