// The rules 10 to 12 and 21 to 30 over rows of bits, each thing looked at once; `plain` says the same without haste.
use crate::answer::{Answer, ACCEPTED};
use crate::list::List;
use crate::package::{Effect, Package, INVOKESTATIC, MAX_CLASSES, MAX_DOMAINS, MAX_FIELDS, MAX_METHODS, NONE};
use crate::trust::{everyone, Classes, Domains, Trust};

/// The first broken rule, or acceptance.
pub fn answer(package: &Package, trust: &Trust) -> Answer {
    let slots = Slots::of(package);
    None.or_else(|| mutual_dominance(package, trust))
        .or_else(|| unlike_signatures(package, &slots))
        .or_else(|| doubled_methods(package, &slots))
        .or_else(|| unsafe_widening(package, trust))
        .or_else(|| lost_suspicion(package, trust))
        .or_else(|| bad_overriding(package, trust, &slots))
        .or_else(|| bad_effect(package, trust))
        .unwrap_or(ACCEPTED)
}

/// 10: two domains that dominate each other have equal rows, since the relation is closed.
fn mutual_dominance(package: &Package, trust: &Trust) -> Option<Answer> {
    let rows = &trust.dominators[..package.domains];
    for (lower, row) in rows.iter().enumerate() {
        if let Some(distance) = rows[lower + 1..].iter().position(|other| other == row) {
            return Some(Answer::new(10, lower, lower + 1 + distance));
        }
    }
    None
}

/// The instance methods sorted by slot and, in a slot, by number.
struct Slots {
    /// Slot and number of each method in one word.
    sorted: List<u32, MAX_METHODS>,
}

impl Slots {
    fn of(package: &Package) -> Slots {
        let mut words = [0u32; MAX_METHODS];
        let mut count = 0;
        for (number, method) in package.methods.iter().enumerate() {
            words[count] = (method.slot as u32) << 8 | number as u32;
            count += !method.is_static as usize;
        }
        words[..count].sort_unstable();
        Slots { sorted: List::from(words, count) }
    }

    /// The groups of methods that share a slot with another one, each in rising order.
    fn groups(&self) -> impl Iterator<Item = &[u32]> {
        self.sorted.chunk_by(|one, other| one >> 8 == other >> 8).filter(|group| group.len() > 1)
    }
}

fn number_of(word: u32) -> usize {
    (word & 0xFF) as usize
}

/// 11: if not all of a slot are alike, its first method differs from one of them.
fn unlike_signatures(package: &Package, slots: &Slots) -> Option<Answer> {
    let signature = |word: u32| package.methods[number_of(word)].signature();
    let unlike = slots.groups().filter_map(|group| {
        let first = signature(group[0]);
        let other = group.iter().find(|&&word| signature(word) != first)?;
        Some((number_of(group[0]), number_of(*other)))
    });
    unlike.min().map(|(lower, higher)| Answer::new(11, lower, higher))
}

/// 12: a class met twice in a slot.
fn doubled_methods(package: &Package, slots: &Slots) -> Option<Answer> {
    slots.groups().filter_map(|group| first_double(package, group)).min().map(|(lower, higher)| Answer::new(12, lower, higher))
}

fn first_double(package: &Package, group: &[u32]) -> Option<(usize, usize)> {
    let class = |word: u32| package.methods[number_of(word)].class;
    let mut met: Classes = 0;
    let mut doubles: Classes = 0;
    for &word in group {
        let bit = 1 << class(word);
        doubles |= met & bit;
        met |= bit;
    }
    if doubles == 0 {
        return None;
    }
    let lower = group.iter().position(|&word| doubles >> class(word) & 1 != 0)?;
    let higher = group[lower + 1..].iter().find(|&&word| class(word) == class(group[lower]))?;
    Some((number_of(group[lower]), number_of(*higher)))
}

/// 21: everything above a class must trust it.
fn unsafe_widening(package: &Package, trust: &Trust) -> Option<Answer> {
    let trusting = trusting_rows(package, trust);
    for (number, class) in package.classes.iter().enumerate() {
        let bad = trust.supers[number] & !trusting[class.domain as usize];
        if bad != 0 {
            return Some(Answer::new(21, number, bad.trailing_zeros() as usize));
        }
    }
    None
}

/// Row D: the classes that trust a class of D.
fn trusting_rows(package: &Package, trust: &Trust) -> [Classes; MAX_DOMAINS] {
    let mut rows = [0; MAX_DOMAINS];
    for below in 0..package.domains {
        let classes = trust.lying_in[below];
        let mut above = if classes == 0 { 0 } else { trust.dominators[below] };
        while above != 0 {
            rows[above.trailing_zeros() as usize] |= classes;
            above &= above - 1;
        }
    }
    rows
}

/// 22. Suspicion is a matter of domains. It is hereditary exactly when no single step down to a direct subtype ends it, on one
/// side with the other side standing still; only if one does, the first pair is searched.
fn lost_suspicion(package: &Package, trust: &Trust) -> Option<Answer> {
    let suspicious = suspicion_rows(package, trust);
    let kept = package.classes.iter().all(|class| {
        let own = suspicious[class.domain as usize];
        class.supers().iter().all(|&above| suspicious[trust.home(above) as usize] & !own == 0)
    });
    if kept {
        None
    } else {
        first_lost(package, trust, &suspicious)
    }
}

/// Row D: the inhabited domains that are suspicious of D.
fn suspicion_rows(package: &Package, trust: &Trust) -> [Domains; MAX_DOMAINS] {
    let inhabited = trust.inhabited();
    let mut related = trust.dominators;
    for below in 0..package.domains {
        for above in 0..package.domains {
            related[above] |= (trust.dominators[below] >> above & 1) << below;
        }
    }
    related.map(|row| !row & inhabited & everyone(package.domains))
}

/// The first two classes under suspicious ones that are not suspicious themselves.
fn first_lost(package: &Package, trust: &Trust, suspicious: &[Domains; MAX_DOMAINS]) -> Option<Answer> {
    let mut homes_above = [0 as Domains; MAX_CLASSES];
    let mut suspects_above = [0 as Domains; MAX_CLASSES];
    for (number, class) in package.classes.iter().enumerate() {
        homes_above[number] = 1 << class.domain;
        suspects_above[number] = suspicious[class.domain as usize];
        for &above in class.supers() {
            homes_above[number] |= homes_above[above as usize];
            suspects_above[number] |= suspects_above[above as usize];
        }
    }
    for (a, class) in package.classes.iter().enumerate() {
        let own = suspicious[class.domain as usize];
        let lost = |b: usize| suspects_above[a] & homes_above[b] != 0 && own >> trust.home[b] & 1 == 0;
        if let Some(b) = (0..package.classes.len()).find(|&b| lost(b)) {
            return Some(Answer::new(22, a, b));
        }
    }
    None
}

/// 23 to 25, slot by slot; of each rule the lowest pair.
fn bad_overriding(package: &Package, trust: &Trust, slots: &Slots) -> Option<Answer> {
    let mut first = [None; 3];
    let mut by_label = [0; MAX_DOMAINS];
    for group in slots.groups() {
        Overriding::of(package, trust, group, &mut by_label).judge(&mut first);
        // Only what this slot has set is cleared for the next one.
        for &word in group {
            by_label[package.methods[number_of(word)].label as usize] = 0;
        }
    }
    let number = first.iter().position(|pair| pair.is_some())?;
    first[number].map(|(overrider, overridden)| Answer::new(23 + number as u8, overrider, overridden))
}

/// The methods of one slot; their signature is one, and each class has one of them at most.
struct Overriding<'a> {
    package: &'a Package,
    trust: &'a Trust,
    group: &'a [u32],
    /// The classes that have a method of the slot.
    classes: Classes,
    /// Row L: those whose method is labelled L.
    by_label: &'a [Classes; MAX_DOMAINS],
    /// The labels that occur.
    labels: Domains,
    /// The classes that the return type trusts.
    result_trusts: Classes,
    /// The domains that every parameter type trusts.
    params_trust: Domains,
}

impl<'a> Overriding<'a> {
    fn of(package: &'a Package, trust: &'a Trust, group: &'a [u32], by_label: &'a mut [Classes; MAX_DOMAINS]) -> Self {
        let (mut classes, mut labels) = (0, 0);
        for &word in group {
            let method = &package.methods[number_of(word)];
            classes |= 1 << method.class;
            by_label[method.label as usize] |= 1 << method.class;
            labels |= 1 << method.label;
        }
        let method = &package.methods[number_of(group[0])];
        let result_trusts =
            if method.result == NONE { Classes::MAX } else { classes_in(trust, trust.trusted_domains(method.result)) };
        let params_trust = params_trust(trust, method.params());
        Overriding { package, trust, group, classes, by_label, labels, result_trusts, params_trust }
    }

    /// Lowers `first`, the lowest pair so far of each rule, where this slot has a lower one.
    fn judge(&self, first: &mut [Option<(usize, usize)>; 3]) {
        for &word in self.group {
            let overrider = number_of(word);
            let method = &self.package.methods[overrider];
            let overridden = self.trust.supers[method.class as usize] & !(1 << method.class) & self.classes;
            if overridden == 0 {
                continue;
            }
            let domain = self.trust.home(method.class);
            let same = self.trust.lying_in[domain as usize];
            let params_fit = if self.params_trust >> domain & 1 != 0 { Classes::MAX } else { same };
            let fit = [self.allowed_by_label(method.label), self.result_trusts | same, params_fit];
            for (pair, fit) in first.iter_mut().zip(fit) {
                if overridden & !fit != 0 {
                    let found = (overrider, self.lowest(overridden & !fit));
                    *pair = Some(pair.map_or(found, |before: (usize, usize)| before.min(found)));
                }
            }
        }
    }

    /// The classes whose method of the slot has a label that dominates this one.
    fn allowed_by_label(&self, label: u8) -> Classes {
        let mut above = self.trust.dominators[label as usize] & self.labels;
        let mut classes = 0;
        while above != 0 {
            classes |= self.by_label[above.trailing_zeros() as usize];
            above &= above - 1;
        }
        classes
    }

    /// The lowest method of the slot in one of the classes.
    fn lowest(&self, classes: Classes) -> usize {
        let found = self.group.iter().find(|&&word| classes >> self.package.methods[number_of(word)].class & 1 != 0);
        number_of(*found.expect("a class of the slot has its method"))
    }
}

fn classes_in(trust: &Trust, mut domains: Domains) -> Classes {
    let mut classes = 0;
    while domains != 0 {
        classes |= trust.lying_in[domains.trailing_zeros() as usize];
        domains &= domains - 1;
    }
    classes
}

/// The domains that every one of the types trusts; all domains when there is none.
fn params_trust(trust: &Trust, params: &[u8]) -> Domains {
    params.iter().fold(Domains::MAX, |domains, &param| domains & trust.trusted_domains(param))
}

/// What an op names, for the rules 26 and 27: the domains that its type C trusts, and the domain of its class B.
#[derive(Clone, Copy)]
struct Named {
    trusts: Domains,
    domain: u32,
}

/// A domain that no class has: `new` and `checkcast` have no B that could lie in the caller's domain.
const NOWHERE: u32 = 63;

/// Where classes, fields and methods begin in the table of what ops name.
const FIELDS_AT: usize = MAX_CLASSES;
const METHODS_AT: usize = FIELDS_AT + MAX_FIELDS;
const NAMED: usize = METHODS_AT + MAX_METHODS;
const BEGIN: [usize; 8] = [0, 0, FIELDS_AT, FIELDS_AT, FIELDS_AT, FIELDS_AT, METHODS_AT, METHODS_AT];

struct Effects<'a> {
    package: &'a Package,
    trust: &'a Trust,
    named: [Named; NAMED],
    /// For each method the domains that all its parameter types trust.
    params_trust: [Domains; MAX_METHODS],
}

/// 26 to 30: each effect is read once, and of each rule the first effect is kept.
fn bad_effect(package: &Package, trust: &Trust) -> Option<Answer> {
    let effects = Effects::of(package, trust);
    let mut first: [Option<(usize, usize)>; 5] = [None; 5];
    for (number, effect) in package.effects.iter().enumerate() {
        let mut broken = effects.broken(effect);
        while broken != 0 {
            let rule = broken.trailing_zeros() as usize;
            first[rule].get_or_insert_with(|| (number, if rule == 4 { effects.first_param(effect) } else { 0 }));
            broken &= broken - 1;
        }
    }
    let rule = first.iter().position(|place| place.is_some())?;
    first[rule].map(|(effect, param)| Answer::new(26 + rule as u8, effect, param))
}

impl<'a> Effects<'a> {
    fn of(package: &'a Package, trust: &'a Trust) -> Self {
        let mut effects =
            Effects { package, trust, named: [Named { trusts: 0, domain: NOWHERE }; NAMED], params_trust: [0; MAX_METHODS] };
        for class in 0..package.classes.len() {
            effects.named[class].trusts = trust.trusted_domains(class as u8);
        }
        for (number, field) in package.fields.iter().enumerate() {
            effects.named[FIELDS_AT + number] =
                Named { trusts: trust.trusted_domains(field.of), domain: trust.home(field.class) as u32 };
        }
        for (number, method) in package.methods.iter().enumerate() {
            let trusts = if method.result == NONE { Domains::MAX } else { trust.trusted_domains(method.result) };
            effects.named[METHODS_AT + number] = Named { trusts, domain: trust.home(method.class) as u32 };
            effects.params_trust[number] = params_trust(trust, method.params());
        }
        effects
    }

    /// The rules that an effect breaks, bit 0 for 26 to bit 4 for 30.
    #[inline]
    fn broken(&self, effect: &Effect) -> u32 {
        let caller = &self.package.methods[effect.method as usize];
        let from = self.trust.home(caller.class) as u32;
        let named = self.named[BEGIN[effect.op as usize & 7] + effect.target as usize];
        // putstatic and putfield hand C to B; everything else hands it to A.
        let writes = matches!(effect.op, 3 | 5);
        let getter = if writes { named.domain } else { from };
        let shared = named.trusts >> getter & 1 != 0 || named.domain == from;
        let acquired = (!shared as u32) << (effect.op > 1) as u32;
        if effect.op < INVOKESTATIC {
            acquired
        } else {
            acquired | self.call_broken(effect, caller.label, from, named.domain)
        }
    }

    #[inline]
    fn call_broken(&self, effect: &Effect, label: u8, from: u32, to: u32) -> u32 {
        let called = &self.package.methods[effect.target as usize];
        let receiver = self.trust.dominators[to as usize];
        let params = self.params_trust[effect.target as usize];
        let mediated = effect.op != INVOKESTATIC || receiver >> from & 1 != 0;
        let amplifies = !self.trust.dominated(called.label, label);
        // By transitivity a parameter that trusts B trusts m where B does, so all of them may be judged at once.
        let granted = params >> to & 1 != 0 || from == to || (receiver & params) >> label & 1 != 0;
        (!mediated as u32) << 2 | (amplifies as u32) << 3 | (!granted as u32) << 4
    }

    /// The first parameter that breaks 30, where one does.
    fn first_param(&self, effect: &Effect) -> usize {
        let label = self.package.methods[effect.method as usize].label;
        let called = &self.package.methods[effect.target as usize];
        let receiver = self.trust.home(called.class);
        let granted = |param: u8| {
            let trusts = self.trust.trusted_domains(param);
            trusts >> receiver & 1 != 0 || (trusts & self.trust.dominators[receiver as usize]) >> label & 1 != 0
        };
        called.params().iter().position(|&param| !granted(param)).expect("some parameter breaks 30")
    }
}
