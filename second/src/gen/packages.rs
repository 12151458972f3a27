// Packages made of chance that are accepted: each thing is added only if no rule forbids it.
use super::random::Random;
use crate::package::*;
use crate::plain::Plain;
use crate::readings::Settled;
use crate::trust::{Domains, Trust};

/// How many of each thing a package is to have at most.
#[derive(Clone, Copy)]
pub struct Size {
    pub domains: usize,
    pub pairs: usize,
    pub classes: usize,
    pub supers: usize,
    pub fields: usize,
    pub methods: usize,
    pub params: usize,
    pub effects: usize,
}

/// Every limit at once.
pub const LARGEST: Size = Size {
    domains: MAX_DOMAINS,
    pairs: MAX_PAIRS,
    classes: MAX_CLASSES,
    supers: MAX_SUPERS,
    fields: MAX_FIELDS,
    methods: MAX_METHODS,
    params: MAX_PARAMS,
    effects: MAX_EFFECTS,
};

impl Size {
    /// Mostly small, sometimes large, seldom the largest.
    pub fn any(random: &mut Random) -> Size {
        match random.below(200) {
            0 | 1 => LARGEST,
            2..=9 => Size::up_to(random, MAX_DOMAINS, MAX_CLASSES),
            10..=29 => Size::up_to(random, 16, 40),
            30..=39 => Size { classes: 0, fields: 0, methods: 0, effects: 0, ..Size::up_to(random, 8, 8) },
            _ => Size::up_to(random, 6, 8),
        }
    }

    pub fn small(random: &mut Random) -> Size {
        Size::up_to(random, 6, 9)
    }

    fn up_to(random: &mut Random, domains: usize, classes: usize) -> Size {
        Size {
            domains: random.between(1, domains),
            pairs: random.below(domains * 2 + 2),
            classes: random.between(1, classes),
            supers: random.between(1, MAX_SUPERS),
            fields: random.below(classes + 2),
            methods: random.between(1, classes + 3),
            params: random.below(MAX_PARAMS + 1),
            effects: random.below(classes * 5 + 1),
        }
    }
}

/// Adds things to a package; `careless` of a hundred are added without asking the rules.
pub struct Builder<'a> {
    pub random: &'a mut Random,
    pub package: Package,
    pub trust: Trust,
    careless: usize,
    /// Row D: the domains of the direct supertypes of D's classes.
    steps: [Domains; MAX_DOMAINS],
    inhabited: Domains,
}

/// An accepted package.
pub fn accepted(random: &mut Random, size: Size) -> Package {
    build(random, size, 0)
}

/// A package in which some things break rules.
pub fn careless(random: &mut Random, size: Size, percent: usize) -> Package {
    build(random, size, percent)
}

fn build(random: &mut Random, size: Size, percent: usize) -> Package {
    let mut builder = Builder::new(random, percent);
    builder.add_domains(&size);
    builder.add_classes(&size);
    builder.add_fields(&size);
    builder.add_methods(&size);
    builder.add_effects(&size);
    builder.package
}

pub fn no_method() -> Method {
    Method { class: 0, label: 0, is_static: false, slot: 0, result: NONE, params: [NONE; MAX_PARAMS], param_count: 0 }
}

impl<'a> Builder<'a> {
    pub fn new(random: &'a mut Random, careless: usize) -> Self {
        let package = Package::new();
        let mut empty = Package::new();
        empty.domains = 1;
        let trust = Trust::of(&empty, Settled);
        Builder { random, package, trust, careless, steps: [0; MAX_DOMAINS], inhabited: 0 }
    }

    /// Goes on with a package that is there.
    pub fn over(random: &'a mut Random, package: Package) -> Self {
        let trust = Trust::of(&package, Settled);
        Builder { random, package, trust, careless: 0, steps: [0; MAX_DOMAINS], inhabited: 0 }
    }

    fn is_careless(&mut self) -> bool {
        self.careless > 0 && self.random.chance(self.careless)
    }

    pub fn plain(&self) -> Plain<'_, Settled> {
        Plain { package: &self.package, trust: &self.trust, readings: Settled }
    }

    /// Domains in a hidden order that pairs climb, so that no two dominate each other.
    pub fn add_domains(&mut self, size: &Size) {
        let count = size.domains;
        self.package.domains = count;
        let mut order: Vec<u8> = (1..count as u8).collect();
        self.random.shuffle(&mut order);
        let shape = self.random.below(4);
        for number in 0..size.pairs {
            let pair = self.climbing_pair(&order, shape, number);
            if self.is_careless() && self.random.chance(10) {
                self.package.pairs.push((pair.1, pair.0));
            } else {
                self.package.pairs.push(pair);
            }
        }
        self.trust = Trust::of(&self.package, Settled);
    }

    /// A chain, a lattice of near neighbours, or any climbing pair; now and then a repeated one or one of a domain with itself.
    fn climbing_pair(&mut self, order: &[u8], shape: usize, number: usize) -> (u8, u8) {
        if self.random.chance(5) {
            let domain = self.random.below(self.package.domains) as u8;
            return (if self.random.chance(50) { domain } else { 0 }, domain);
        }
        if self.random.chance(5) {
            if let Some(&pair) = self.random.pick(&self.package.pairs) {
                return pair;
            }
        }
        if order.len() < 2 {
            return (0, 0);
        }
        let low = if shape == 0 { number % (order.len() - 1) } else { self.random.below(order.len() - 1) };
        let reach = if shape == 0 {
            1
        } else if shape == 1 {
            3
        } else {
            order.len()
        };
        let high = (low + 1 + self.random.below(reach)).min(order.len() - 1);
        (order[low], order[high])
    }

    pub fn add_classes(&mut self, size: &Size) {
        // Few domains with many classes each, or many with few.
        let spread = self.random.between(1, size.domains);
        for _ in 0..size.classes {
            let domain = self.random.below(spread) as u8;
            let supers = self.random.below(size.supers + 1);
            self.add_class(domain, supers);
        }
        self.trust = Trust::of(&self.package, Settled);
    }

    /// Adds a class to the domain, or where that would break a rule to that of another class.
    fn add_class(&mut self, domain: u8, supers: usize) {
        let careless = self.is_careless();
        let mut class = self.class_under(domain, supers, careless);
        if !careless && !self.keeps_suspicion(&class) {
            class = Class { super_count: 0, ..class };
            if !self.keeps_suspicion(&class) {
                let home = self.random.pick(&self.package.classes).map_or(0, |other| other.domain);
                class = self.class_under(home, supers, false);
                if !self.keeps_suspicion(&class) {
                    class.super_count = 0;
                }
            }
        }
        self.push_class(class);
    }

    fn push_class(&mut self, class: Class) {
        let domain = class.domain as usize;
        for &above in class.supers() {
            self.steps[domain] |= 1 << self.package.classes[above as usize].domain;
        }
        self.inhabited |= 1 << domain;
        self.package.classes.push(class);
    }

    /// A class of the domain with supertypes that trust it.
    fn class_under(&mut self, domain: u8, count: usize, careless: bool) -> Class {
        let classes = self.package.classes.len();
        let trusting: Vec<u8> = (0..classes as u8)
            .filter(|&above| careless || self.trust.dominated(self.package.classes[above as usize].domain, domain))
            .collect();
        let mut supers = [0; MAX_SUPERS];
        let count = if trusting.is_empty() { 0 } else { count };
        for place in supers.iter_mut().take(count) {
            // The last classes are preferred, so that hierarchies grow deep.
            let recent = &trusting[trusting.len().saturating_sub(6)..];
            let among = if self.random.chance(50) { recent } else { &trusting };
            *place = *self.random.pick(among).expect("some class trusts it");
        }
        Class { domain, supers, super_count: count as u8 }
    }

    fn suspects(&self, domain: usize) -> Domains {
        let dominated = (0..self.package.domains)
            .filter(|&below| self.trust.dominated(below as u8, domain as u8))
            .fold(0, |set, below| set | 1 << below);
        !(self.trust.dominators[domain] | dominated)
    }

    /// Whether 22 holds with this class, too: no step down to a direct subtype ends a suspicion.
    fn keeps_suspicion(&self, class: &Class) -> bool {
        let inhabited = self.inhabited | 1 << class.domain;
        let mut steps = self.steps;
        for &above in class.supers() {
            steps[class.domain as usize] |= 1 << self.package.classes[above as usize].domain;
        }
        (0..self.package.domains).all(|domain| {
            let own = self.suspects(domain);
            (0..self.package.domains).all(|above| steps[domain] >> above & 1 == 0 || self.suspects(above) & inhabited & !own == 0)
        })
    }

    pub fn any_class(&mut self) -> u8 {
        self.random.below(self.package.classes.len()) as u8
    }

    pub fn any_domain(&mut self) -> u8 {
        self.random.below(self.package.domains) as u8
    }

    pub fn add_fields(&mut self, size: &Size) {
        let count = if self.package.classes.is_empty() { 0 } else { size.fields };
        for _ in 0..count {
            let like = self.random.pick(&self.package.fields).copied();
            let of = self.any_class();
            // Fields of one class differ in their type alone, or in nothing, or in everything.
            let field = match like {
                Some(like) if self.random.chance(30) => Field { of, ..like },
                Some(like) if self.random.chance(12) => like,
                _ => Field { class: self.any_class(), of, is_static: self.random.chance(50) },
            };
            self.package.fields.push(field);
        }
    }

    pub fn add_methods(&mut self, size: &Size) {
        let count = if self.package.classes.is_empty() { 0 } else { size.methods };
        let full = size.params == MAX_PARAMS && size.methods == MAX_METHODS;
        for _ in 0..count {
            let params = if full { MAX_PARAMS } else { self.random.below(size.params + 1) };
            let method = self.fitting_method(params);
            self.package.methods.push(method);
        }
    }

    /// A method that breaks no rule: static, of a slot that is there, or of a new one.
    fn fitting_method(&mut self, params: usize) -> Method {
        if self.random.chance(25) {
            return Method { is_static: true, slot: 0, ..self.method(params) };
        }
        for _ in 0..4 {
            let Some(&like) = self.random.pick(&self.package.methods) else { break };
            let mut method = Method { class: self.any_class(), label: self.likely_label(like.class), ..like };
            if self.is_careless() {
                method.result = self.any_class();
            }
            if !like.is_static && (self.is_careless() || self.may_join(&method)) {
                return method;
            }
        }
        let fresh = self.random.between(1, 0xFFFF) as u16;
        let slot = if self.package.methods.iter().any(|method| method.slot == fresh) { self.free_slot() } else { fresh };
        Method { slot, ..self.method(params) }
    }

    fn free_slot(&self) -> u16 {
        (1..=0xFFFF)
            .find(|&slot| self.package.methods.iter().all(|method| method.slot != slot))
            .expect("fewer methods than slots")
    }

    /// A label at or near the class's domain, or any.
    fn likely_label(&mut self, class: u8) -> u8 {
        if self.random.chance(60) {
            self.package.classes[class as usize].domain
        } else {
            self.any_domain()
        }
    }

    pub fn method(&mut self, params: usize) -> Method {
        let class = self.any_class();
        let mut method = Method { class, label: self.likely_label(class), ..no_method() };
        method.result = if self.random.chance(40) { NONE } else { self.likely_type(class) };
        for place in 0..params {
            method.params[place] = self.likely_type(class);
        }
        method.param_count = params as u8;
        method
    }

    /// The class itself, or any other.
    fn likely_type(&mut self, class: u8) -> u8 {
        if self.random.chance(15) {
            class
        } else {
            self.any_class()
        }
    }

    /// Whether a method of a slot that is there keeps 12 and 23 to 25.
    pub fn may_join(&self, method: &Method) -> bool {
        let plain = self.plain();
        self.package.methods.iter().all(|other| {
            let apart = other.is_static || other.slot != method.slot;
            apart
                || other.class != method.class
                    && !(23..=25).any(|rule| plain.methods_break(rule, method, other) || plain.methods_break(rule, other, method))
        })
    }

    pub fn add_effects(&mut self, size: &Size) {
        let count = if self.package.methods.is_empty() { 0 } else { size.effects };
        let mut tries = 20 * count;
        while self.package.effects.len() < count && tries > 0 {
            tries -= 1;
            let Some(effect) = self.any_effect() else { continue };
            if self.is_careless() || self.effect_fits(&effect) {
                self.package.effects.push(effect);
            }
        }
        self.fill_effects(count);
    }

    /// Repeats effects where chance did not find enough.
    fn fill_effects(&mut self, count: usize) {
        while self.package.effects.len() < count && !self.package.effects.is_empty() {
            let effect = *self.random.pick(&self.package.effects).expect("there is one");
            self.package.effects.push(effect);
        }
    }

    pub fn effect_fits(&self, effect: &Effect) -> bool {
        let plain = self.plain();
        (26..=30).all(|rule| plain.effect_breaks(rule, effect).is_none())
    }

    /// An effect that reads, whatever the rules say of it.
    pub fn any_effect(&mut self) -> Option<Effect> {
        let method = self.random.below(self.package.methods.len()) as u8;
        self.any_effect_of(method)
    }

    pub fn any_effect_of(&mut self, method: u8) -> Option<Effect> {
        let op = self.random.below(8) as u8;
        let target = self.any_target(op)?;
        Some(Effect { method, op, target })
    }

    /// A number that an op may name.
    pub fn any_target(&mut self, op: u8) -> Option<u8> {
        let fits: Vec<u8> = match op {
            NEW | CHECKCAST => return Some(self.any_class()),
            INVOKESTATIC | INVOKEMETHOD => numbers(&self.package.methods, |method| method.is_static == (op == INVOKESTATIC)),
            _ => numbers(&self.package.fields, |field| field.is_static == (op <= PUTSTATIC)),
        };
        self.random.pick(&fits).copied()
    }
}

pub fn numbers<T>(items: &[T], test: impl Fn(&T) -> bool) -> Vec<u8> {
    (0..items.len()).filter(|&number| test(&items[number])).map(|number| number as u8).collect()
}

/// Puts fields, methods and effects into another order and names them by their new numbers.
pub fn reorder(random: &mut Random, package: &Package) -> Package {
    let (field_order, field_numbers) = new_order(random, package.fields.len());
    let (method_order, method_numbers) = new_order(random, package.methods.len());
    let (effect_order, _) = new_order(random, package.effects.len());
    let mut other = Package::new();
    other.domains = package.domains;
    package.pairs.iter().for_each(|&pair| other.pairs.push(pair));
    package.classes.iter().for_each(|&class| other.classes.push(class));
    field_order.iter().for_each(|&old| other.fields.push(package.fields[old]));
    method_order.iter().for_each(|&old| other.methods.push(package.methods[old]));
    for &old in &effect_order {
        let effect = package.effects[old];
        let target = match effect.op {
            NEW | CHECKCAST => effect.target,
            INVOKESTATIC | INVOKEMETHOD => method_numbers[effect.target as usize],
            _ => field_numbers[effect.target as usize],
        };
        other.effects.push(Effect { method: method_numbers[effect.method as usize], op: effect.op, target });
    }
    other
}

/// Old numbers in their new order, and the new number of each old one.
fn new_order(random: &mut Random, count: usize) -> (Vec<usize>, Vec<u8>) {
    let mut order: Vec<usize> = (0..count).collect();
    random.shuffle(&mut order);
    let mut numbers = vec![0; count];
    for (new, &old) in order.iter().enumerate() {
        numbers[old] = new as u8;
    }
    (order, numbers)
}
