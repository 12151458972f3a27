// Rows of bits for the relations of 003, 3.2: dominance, trust, subtypes and suspicion.
use crate::package::{Class, Package, MAX_CLASSES, MAX_DOMAINS};
use crate::readings::{Readings, Wrong};

/// A set of domains, bit D for domain D.
pub type Domains = u32;

/// A set of classes, bit C for class C.
pub type Classes = u128;

pub struct Trust {
    /// Row E: the domains that dominate E, so bit D is "E ► D".
    pub dominators: [Domains; MAX_DOMAINS],
    /// Row A: the classes that A is under, A itself too, so bit B is "A <: B".
    pub supers: [Classes; MAX_CLASSES],
    /// Row D: the classes that lie in D.
    pub lying_in: [Classes; MAX_DOMAINS],
    /// The domain of each class.
    pub home: [u8; MAX_CLASSES],
}

impl Trust {
    pub fn of<R: Readings>(package: &Package, readings: R) -> Trust {
        let mut trust = Trust {
            dominators: dominators(package, readings),
            supers: [0; MAX_CLASSES],
            lying_in: [0; MAX_DOMAINS],
            home: [0; MAX_CLASSES],
        };
        for (number, class) in package.classes.iter().enumerate() {
            trust.supers[number] = super_row(number, class, &trust.supers);
            trust.lying_in[class.domain as usize] |= 1 << number;
            trust.home[number] = class.domain;
        }
        trust
    }

    /// E ► D: D dominates E.
    #[inline]
    pub fn dominated(&self, below: u8, above: u8) -> bool {
        self.dominators[below as usize] >> above & 1 != 0
    }

    /// B ▷ A: class B trusts class A.
    #[inline]
    pub fn trusts(&self, truster: u8, trusted: u8) -> bool {
        self.dominated(self.home(truster), self.home(trusted))
    }

    #[inline]
    pub fn home(&self, class: u8) -> u8 {
        self.home[class as usize]
    }

    /// The domains whose classes a class trusts.
    #[inline]
    pub fn trusted_domains(&self, class: u8) -> Domains {
        self.dominators[self.home(class) as usize]
    }

    /// A ⋈ B: the same domain.
    #[inline]
    pub fn same_domain(&self, one: u8, other: u8) -> bool {
        self.home(one) == self.home(other)
    }

    /// A <: B.
    #[inline]
    pub fn is_under(&self, class: u8, above: u8) -> bool {
        self.supers[class as usize] >> above & 1 != 0
    }

    /// The domains that have a class.
    pub fn inhabited(&self) -> Domains {
        (0..MAX_DOMAINS).filter(|&domain| self.lying_in[domain] != 0).fold(0, |set, domain| set | 1 << domain)
    }
}

/// The row of a class: itself, and whatever its direct supertypes, which have lower numbers, are under.
#[inline]
fn super_row(number: usize, class: &Class, rows: &[Classes; MAX_CLASSES]) -> Classes {
    class.supers().iter().fold(1 << number, |row, &above| row | rows[above as usize])
}

/// The smallest reflexive and transitive relation with 0 below everything and every listed pair in it.
fn dominators<R: Readings>(package: &Package, readings: R) -> [Domains; MAX_DOMAINS] {
    let all = everyone(package.domains);
    let mut rows = [0; MAX_DOMAINS];
    for domain in 0..package.domains {
        rows[domain] = 1 << domain;
    }
    for &(below, above) in package.pairs.iter() {
        if readings.wrong(Wrong::PairStrongerFirst) {
            rows[above as usize] |= 1 << below;
        } else {
            rows[below as usize] |= 1 << above;
        }
    }
    if !readings.wrong(Wrong::NoRoot) {
        rows[0] = all;
    }
    if !readings.wrong(Wrong::NoClosure) {
        close(&mut rows, package.domains);
    }
    rows
}

/// The set of the first `count` domains.
pub fn everyone(count: usize) -> Domains {
    u32::MAX >> (MAX_DOMAINS - count)
}

/// Warshall's closure: whoever has the middle among its dominators gets the middle's, too.
fn close(rows: &mut [Domains; MAX_DOMAINS], count: usize) {
    for middle in 0..count {
        let through = rows[middle];
        for row in rows.iter_mut() {
            let reached = 0u32.wrapping_sub(*row >> middle & 1);
            *row |= through & reached;
        }
    }
}
