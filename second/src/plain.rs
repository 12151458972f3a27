// The rules 10 to 30 said as plainly as the paper says them: the yardstick for `rules`, and the place of their wrong readings.
use crate::answer::{Answer, ACCEPTED};
use crate::package::{Effect, Method, Package, CHECKCAST, INVOKEMETHOD, INVOKESTATIC, NEW, NONE, PUTFIELD, PUTSTATIC};
use crate::readings::{Readings, Wrong};
use crate::trust::Trust;

pub struct Plain<'a, R> {
    pub package: &'a Package,
    pub trust: &'a Trust,
    pub readings: R,
}

/// The two places that a broken rule names.
type Places = (usize, usize);

impl<R: Readings> Plain<'_, R> {
    /// The first broken rule, or acceptance.
    pub fn answer(&self) -> Answer {
        let order = if self.readings.wrong(Wrong::TwelveFirst) { [10, 12, 11] } else { [10, 11, 12] };
        let rules = order.into_iter().chain(21..=25);
        let broken = rules.filter_map(|rule| Some((rule, self.first_pair(rule)?))).next().or_else(|| self.first_effect());
        broken.map_or(ACCEPTED, |(rule, (first, second))| Answer::new(rule, first, second))
    }

    /// Every rule that is broken somewhere.
    pub fn broken_rules(&self) -> Vec<u8> {
        let pairs = [10, 11, 12].into_iter().chain(21..=25).filter(|&rule| self.first_pair(rule).is_some());
        let effects =
            (26..=30).filter(|&rule| self.package.effects.iter().any(|effect| self.effect_breaks(rule, effect).is_some()));
        pairs.chain(effects).collect()
    }

    /// The first place of a rule about pairs, in rising order.
    fn first_pair(&self, rule: u8) -> Option<Places> {
        let count = match rule {
            10 => self.package.domains,
            21 | 22 => self.package.classes.len(),
            _ => self.package.methods.len(),
        };
        if self.is_off(rule) {
            return None;
        }
        let pairs = (0..count).flat_map(|first| (0..count).map(move |second| (first, second)));
        let mut broken = pairs.filter(|&(first, second)| self.pair_breaks(rule, first as u8, second as u8));
        let found = if self.readings.wrong(Wrong::SecondPlaceFirst) {
            broken.min_by_key(|&(first, second)| (second, first))
        } else {
            broken.next()
        };
        found.map(|places| self.named(rule, places))
    }

    /// The places as the answer names them; only wrong readings differ from what was found.
    fn named(&self, rule: u8, places: Places) -> Places {
        let (first, second) = places;
        if rule == 22 && self.readings.wrong(Wrong::SuspicionNamed) {
            return self.suspicious_above(first as u8, second as u8).expect("22 was broken here");
        }
        if (23..=25).contains(&rule) && self.readings.wrong(Wrong::OverriddenNamedFirst) {
            return (second, first);
        }
        places
    }

    fn pair_breaks(&self, rule: u8, first: u8, second: u8) -> bool {
        match rule {
            10 => first < second && self.trust.dominated(first, second) && self.trust.dominated(second, first),
            11 => self.breaks11(first, second),
            12 => self.breaks12(first, second),
            21 => self.breaks21(first, second),
            22 => self.breaks22(first, second),
            _ => self.breaks_overriding(rule, first, second),
        }
    }

    fn method(&self, number: u8) -> &Method {
        &self.package.methods[number as usize]
    }

    fn one_slot(&self, n: &Method, o: &Method) -> bool {
        !n.is_static && !o.is_static && n.slot == o.slot
    }

    fn breaks11(&self, lower: u8, higher: u8) -> bool {
        let (n, o) = (self.method(lower), self.method(higher));
        let related = self.trust.is_under(n.class, o.class) || self.trust.is_under(o.class, n.class);
        let differ = n.params() != o.params() || n.result != o.result;
        lower < higher && self.one_slot(n, o) && differ && (related || !self.readings.wrong(Wrong::RelatedSlots))
    }

    fn breaks12(&self, lower: u8, higher: u8) -> bool {
        let (n, o) = (self.method(lower), self.method(higher));
        lower < higher && self.one_slot(n, o) && n.class == o.class
    }

    fn breaks21(&self, a: u8, b: u8) -> bool {
        let under = if self.readings.wrong(Wrong::DirectWidening) {
            self.package.classes[a as usize].supers().contains(&b)
        } else {
            self.trust.is_under(a, b)
        };
        under && !self.trust.trusts(b, a)
    }

    pub fn suspicious(&self, a: u8, b: u8) -> bool {
        !self.trust.trusts(a, b) && !self.trust.trusts(b, a)
    }

    fn breaks22(&self, a: u8, b: u8) -> bool {
        let asked = a != b || !self.readings.wrong(Wrong::SuspicionApart);
        asked && !self.suspicious(a, b) && self.suspicious_above(a, b).is_some()
    }

    /// The first suspicious classes that a and b are under.
    fn suspicious_above(&self, a: u8, b: u8) -> Option<Places> {
        let above = |class: u8| (0..self.package.classes.len() as u8).filter(move |&other| self.trust.is_under(class, other));
        above(a).find_map(|one| above(b).find(|&other| self.suspicious(one, other)).map(|other| (one as usize, other as usize)))
    }

    /// n' overrides n.
    fn overrides(&self, overrider: &Method, overridden: &Method) -> bool {
        let proper = overrider.class != overridden.class && self.trust.is_under(overrider.class, overridden.class);
        self.one_slot(overrider, overridden) && proper
    }

    /// No third method stands between the two.
    fn is_nearest(&self, overrider: &Method, overridden: &Method) -> bool {
        !self.package.methods.iter().any(|between| self.overrides(overrider, between) && self.overrides(between, overridden))
    }

    fn breaks_overriding(&self, rule: u8, overrider: u8, overridden: u8) -> bool {
        self.methods_break(rule, self.method(overrider), self.method(overridden))
    }

    /// Whether n' overrides n against one of the rules 23 to 25.
    pub fn methods_break(&self, rule: u8, n1: &Method, n: &Method) -> bool {
        if self.readings.wrong(Wrong::OnlyCalledJudged) || !self.overrides(n1, n) {
            return false;
        }
        if self.readings.wrong(Wrong::NearestOverridden) && !self.is_nearest(n1, n) {
            return false;
        }
        let same = self.same_domain(n.class, n1.class);
        match rule {
            23 if self.readings.wrong(Wrong::OverrideTurned) => !self.trust.dominated(n.label, n1.label),
            23 => !self.trust.dominated(n1.label, n.label),
            24 if self.readings.wrong(Wrong::ResultAgainstOverrider) => self.demands(n.result, n1.class) && !same,
            24 => self.demands(n.result, n.class) && !same,
            _ => {
                let against = if self.readings.wrong(Wrong::ParameterAgainstOverridden) { n.class } else { n1.class };
                n.params().iter().any(|&param| !self.trust.trusts(param, against)) && !same
            }
        }
    }

    /// A return type that does not trust the class; no return type, no demand.
    fn demands(&self, result: u8, class: u8) -> bool {
        result != NONE && !self.trust.trusts(result, class)
    }

    fn same_domain(&self, a: u8, b: u8) -> bool {
        if self.readings.wrong(Wrong::SameClass) {
            a == b
        } else {
            self.trust.same_domain(a, b)
        }
    }

    /// The first of the rules 26 to 30 that an effect breaks, and where.
    fn first_effect(&self) -> Option<(u8, Places)> {
        let found = |rule: u8, number: usize| {
            let second = self.effect_breaks(rule, &self.package.effects[number])?;
            Some((rule, (number, second)))
        };
        let count = self.package.effects.len();
        if self.readings.wrong(Wrong::EffectsInOrder) {
            return (0..count).find_map(|number| (26..=30).find_map(|rule| found(rule, number)));
        }
        (26..=30).find_map(|rule| (0..count).find_map(|number| found(rule, number)))
    }

    /// Whether an effect breaks a rule: if so, the answer's second place.
    pub fn effect_breaks(&self, rule: u8, effect: &Effect) -> Option<usize> {
        let m = self.method(effect.method);
        let broken = match rule {
            _ if self.is_off(rule) => false,
            26 => self.breaks26(m, effect),
            27 => self.breaks27(m, effect),
            28 => self.breaks28(m, effect),
            29 => self.breaks29(m, effect),
            _ => return self.breaks30(m, effect),
        };
        broken.then_some(0)
    }

    fn called(&self, effect: &Effect) -> Option<&Method> {
        matches!(effect.op, INVOKESTATIC | INVOKEMETHOD).then(|| self.method(effect.target))
    }

    fn breaks26(&self, m: &Method, effect: &Effect) -> bool {
        let generates = effect.op == NEW || effect.op == CHECKCAST && !self.readings.wrong(Wrong::CastFree);
        generates && !self.trust.trusts(effect.target, m.class)
    }

    fn breaks27(&self, m: &Method, effect: &Effect) -> bool {
        let a = m.class;
        if effect.op <= CHECKCAST {
            return false;
        }
        if let Some(n) = self.called(effect) {
            return self.demands(n.result, a) && !self.same_domain(a, n.class);
        }
        let field = &self.package.fields[effect.target as usize];
        let writes = effect.op == PUTSTATIC || effect.op == PUTFIELD;
        let turned = if writes { Wrong::WriteAgainstWriter } else { Wrong::ReadAgainstOwner };
        let against = if writes != self.readings.wrong(turned) { field.class } else { a };
        !self.trust.trusts(field.of, against) && !self.same_domain(a, field.class)
    }

    fn breaks28(&self, m: &Method, effect: &Effect) -> bool {
        let asked = effect.op == INVOKESTATIC || effect.op == INVOKEMETHOD && self.readings.wrong(Wrong::InstanceCallMediated);
        asked && !self.trust.trusts(self.method(effect.target).class, m.class)
    }

    fn breaks29(&self, m: &Method, effect: &Effect) -> bool {
        let Some(n) = self.called(effect) else { return false };
        if self.readings.wrong(Wrong::AmplificationTurned) {
            return !self.trust.dominated(m.label, n.label);
        }
        !self.trust.dominated(n.label, m.label)
    }

    /// The first parameter that breaks 30.
    fn breaks30(&self, m: &Method, effect: &Effect) -> Option<usize> {
        let n = self.called(effect)?;
        let position = n.params().iter().position(|&param| !self.may_grant(m, n, param))?;
        if self.readings.wrong(Wrong::GrantJoined) {
            return Some(0);
        }
        Some(position + self.readings.wrong(Wrong::ParameterFromOne) as usize)
    }

    /// C ▷ B, or A ⋈ B, or both B ▷ m and C ▷ m.
    fn may_grant(&self, m: &Method, n: &Method, param: u8) -> bool {
        let receiver = if self.readings.wrong(Wrong::GrantToCaller) { m.class } else { n.class };
        let label_allows = |class: u8| self.trust.dominated(self.trust.home(class), m.label);
        let to_receiver = label_allows(n.class) || self.readings.wrong(Wrong::GrantWithoutReceiver);
        let of_type = label_allows(param) || self.readings.wrong(Wrong::GrantWithoutType);
        self.trust.trusts(param, receiver) || self.same_domain(m.class, n.class) || to_receiver && of_type
    }

    fn is_off(&self, rule: u8) -> bool {
        let switch = match rule {
            10 => Wrong::Without10,
            11 => Wrong::Without11,
            12 => Wrong::Without12,
            21 => Wrong::Without21,
            22 => Wrong::Without22,
            23 => Wrong::Without23,
            24 => Wrong::Without24,
            25 => Wrong::Without25,
            26 => Wrong::Without26,
            27 => Wrong::Without27,
            28 => Wrong::Without28,
            29 => Wrong::Without29,
            _ => Wrong::Without30,
        };
        self.readings.wrong(switch)
    }
}
