// The run text: the start it declares and its steps, and the reader with the answers 51 to 60.
use crate::answer::{Answer, ACCEPTED};
use crate::list::List;
use crate::package::{Package, NONE};
use crate::readings::{Readings, Wrong};
use crate::text::{Frame, Lines, LIMIT};
use crate::trust::Trust;

pub const MAX_LINKS: usize = 256;
pub const MAX_LABELS: usize = 32;
pub const MAX_STEPS: usize = 1024;

/// In the pool's table: no object has this number.
pub const ABSENT: u8 = 0xFF;

/// In a link: it is static and has no owner. References stop at FE.
pub const NO_OWNER: u8 = 0xFF;

/// A link of the report: the declaring class and the type, not the field.
#[derive(Clone, Copy, PartialEq, Eq, Debug)]
pub struct Link {
    pub owner: u8,
    pub class: u8,
    pub of: u8,
    pub target: u8,
}

impl Link {
    /// The link in one word: equal words, equal links.
    #[inline]
    fn word(self) -> u32 {
        u32::from_le_bytes([self.owner, self.class, self.of, self.target])
    }

    /// Whether the links have this one; whole blocks are compared at once.
    #[inline]
    pub fn is_among(self, links: &[Link]) -> bool {
        links.chunks(16).any(|block| block.iter().fold(false, |met, link| met | (link.word() == self.word())))
    }
}

/// A reference in a frame with its label.
#[derive(Clone, Copy, PartialEq, Eq, Debug)]
pub struct Label {
    pub reference: u8,
    pub class: u8,
}

impl Label {
    #[inline]
    fn word(self) -> u16 {
        u16::from_le_bytes([self.reference, self.class])
    }

    /// Whether the labels have this one.
    #[inline]
    pub fn is_among(self, labels: &[Label]) -> bool {
        labels.chunks(16).any(|block| block.iter().fold(false, |met, label| met | (label.word() == self.word())))
    }
}

#[derive(Clone, Copy, PartialEq, Eq, Debug)]
pub struct Arguments {
    pub of: [u8; 6],
    pub count: u8,
}

impl Arguments {
    #[inline]
    pub fn iter(&self) -> impl Iterator<Item = u8> + '_ {
        self.of[..self.count as usize].iter().copied()
    }
}

#[derive(Clone, Copy, PartialEq, Eq, Debug)]
pub enum Step {
    Widen {
        r: u8,
        to: u8,
    },
    New {
        r: u8,
        of: u8,
    },
    Cast {
        r: u8,
        to: u8,
    },
    GetStatic {
        field: u8,
        q: u8,
    },
    PutStatic {
        field: u8,
        q: u8,
    },
    GetField {
        field: u8,
        p: u8,
        q: u8,
    },
    PutField {
        field: u8,
        p: u8,
        q: u8,
    },
    InvokeStatic {
        n: u8,
        args: Arguments,
    },
    InvokeMethod {
        n: u8,
        v: u8,
        r0: u8,
        args: Arguments,
    },
    /// FF returns nothing.
    Return {
        r: u8,
    },
}

#[derive(Clone)]
pub struct Script {
    pub entry: u8,
    /// The class of each object, or `ABSENT`.
    pub pool: [u8; 256],
    pub links: List<Link, MAX_LINKS>,
    pub labels: List<Label, MAX_LABELS>,
    pub steps: List<Step, MAX_STEPS>,
    /// The line of the first step.
    pub steps_at: usize,
    /// The lines of kinds 12 and 13, 14 and 20 to 29 so far, which 58 counts.
    static_links_read: usize,
    links_read: usize,
    labels_read: usize,
    /// References named so far, in objects or steps; only a wrong reading asks.
    named: [bool; 256],
}

/// Where a run text stands: what 55 asks about the line before.
#[derive(Clone, Copy)]
struct Before {
    kind: u8,
    stepped: bool,
}

impl Script {
    pub fn new() -> Script {
        Script {
            entry: 0,
            pool: [ABSENT; 256],
            links: List::new(Link { owner: 0, class: 0, of: 0, target: 0 }),
            labels: List::new(Label { reference: 0, class: 0 }),
            steps: List::new(Step::Return { r: NONE }),
            steps_at: 0,
            static_links_read: 0,
            links_read: 0,
            labels_read: 0,
            named: [false; 256],
        }
    }

    /// Reads a text into this empty script; the answer is 0 or one of 51 to 60.
    pub fn read<R: Readings>(&mut self, text: &[u8], package: &Package, trust: &Trust, readings: R) -> Answer {
        if text.len() > LIMIT || readings.wrong(Wrong::LimitReached) && text.len() == LIMIT {
            return Answer::new(51, 0, 0);
        }
        let mut lines = Lines::new(text, readings);
        let mut frame = Frame::new();
        let mut before = Before { kind: 0x10, stepped: false };
        while !lines.at_end() {
            let number = if !lines.read(&mut frame) {
                if readings.wrong(Wrong::AfterEnd) && before.kind == 0x2F {
                    55
                } else {
                    52
                }
            } else if lines.line == 1 {
                self.take_entry(&frame, package, readings)
            } else {
                Reader { script: self, package, trust, readings, line: lines.line }.take_line(&frame, &mut before)
            };
            if number != 0 && !(before.kind == 0x2F && readings.wrong(Wrong::AfterRunEnd)) {
                return Answer::at_line(number, lines.line);
            }
        }
        end(lines.line, before.kind, readings)
    }

    fn take_entry<R: Readings>(&mut self, frame: &Frame, package: &Package, readings: R) -> u8 {
        let [kind, entry, ..] = frame.bytes;
        let long = readings.wrong(Wrong::LongFirstLine) && frame.len > 2;
        let declared = (entry as usize) < package.methods.len();
        if kind == 0x10
            && (frame.len == 2 || long)
            && declared
            && !(readings.wrong(Wrong::StaticEntry) && !package.methods[entry as usize].is_static)
        {
            self.entry = entry;
            return 0;
        }
        if readings.wrong(Wrong::FirstLineLikeOthers) {
            return if kind != 0x10 {
                55
            } else if frame.len != 2 {
                56
            } else {
                57
            };
        }
        53
    }
}

/// 59 when the text ended before its 2F.
fn end<R: Readings>(lines: usize, last_kind: u8, readings: R) -> Answer {
    if last_kind == 0x2F {
        return ACCEPTED;
    }
    if lines == 0 && readings.wrong(Wrong::EmptyRun) {
        return Answer::at_line(53, 1);
    }
    let behind = if readings.wrong(Wrong::NineAtLastLine) { 0 } else { 1 };
    Answer::at_line(59, lines + behind)
}

/// A script while one of its lines behind the first is read.
struct Reader<'a, R> {
    script: &'a mut Script,
    package: &'a Package,
    trust: &'a Trust,
    readings: R,
    line: usize,
}

const IS_STEP: std::ops::RangeInclusive<u8> = 0x20..=0x29;

impl<R: Readings> Reader<'_, R> {
    /// 55, 58, 56, 57, 60 in this order.
    #[inline]
    fn take_line(&mut self, frame: &Frame, before: &mut Before) -> u8 {
        let kind = frame.kind();
        if !self.may_follow(kind, *before) {
            return 55;
        }
        if IS_STEP.contains(&kind) && !before.stepped {
            self.script.steps_at = self.line;
            before.stepped = true;
        }
        before.kind = kind;
        if self.is_surplus(frame) {
            return if self.readings.wrong(Wrong::SixBeforeEightRun) && !fits(frame) { 56 } else { 58 };
        }
        if !fits(frame) {
            return 56;
        }
        match kind {
            0x10 => self.take_second_entry(frame),
            0x11 => self.take_object(frame),
            0x12 | 0x13 => self.take_link(frame),
            0x14 => self.take_label(frame),
            0x2F => 0,
            _ => self.take_step(frame),
        }
    }

    /// Start lines in order, then steps in any order, then 2F, then nothing.
    #[inline]
    fn may_follow(&self, kind: u8, before: Before) -> bool {
        if before.kind == 0x2F {
            return false;
        }
        match kind {
            0x10 => self.readings.wrong(Wrong::SecondEntry) && before.kind == 0x10,
            0x11..=0x14 if before.stepped => self.readings.wrong(Wrong::StartAfterStep),
            0x11..=0x14 => kind >= before.kind || self.readings.wrong(Wrong::StartAnyOrder),
            0x20..=0x29 | 0x2F => true,
            _ => false,
        }
    }

    /// 58: one line too many of what it counts; repeated lines count, too.
    #[inline]
    fn is_surplus(&mut self, frame: &Frame) -> bool {
        match frame.kind() {
            0x12 | 0x13 => self.is_surplus_link(frame),
            0x14 => {
                let known = self.readings.wrong(Wrong::RepeatedLabels) && self.script.labels.contains(&label_of(frame));
                self.script.labels_read += !known as usize;
                self.script.labels_read > MAX_LABELS
            }
            0x20..=0x29 => self.script.steps.is_full(),
            _ => false,
        }
    }

    fn is_surplus_link(&mut self, frame: &Frame) -> bool {
        let known = self.readings.wrong(Wrong::RepeatedLinks) && self.script.links.contains(&link_of(frame));
        self.script.links_read += !known as usize;
        self.script.static_links_read += (frame.kind() == 0x12) as usize;
        if self.readings.wrong(Wrong::LinksAndLinksApart) {
            let object_links = self.script.links_read - self.script.static_links_read;
            return self.script.static_links_read.max(object_links) > MAX_LINKS;
        }
        self.script.links_read > MAX_LINKS
    }

    fn take_second_entry(&mut self, frame: &Frame) -> u8 {
        let entry = frame.bytes[1];
        if entry as usize >= self.package.methods.len() {
            return 57;
        }
        self.script.entry = entry;
        0
    }

    fn take_object(&mut self, frame: &Frame) -> u8 {
        let [_, reference, class, ..] = frame.bytes;
        let known = self.script.pool[reference as usize];
        let again = known != ABSENT && !(self.readings.wrong(Wrong::ObjectTwice) && known == class);
        if reference == NONE || !self.is_class(class) || again {
            return 57;
        }
        self.script.pool[reference as usize] = class;
        self.script.named[reference as usize] = true;
        0
    }

    #[inline]
    fn is_class(&self, number: u8) -> bool {
        (number as usize) < self.package.classes.len()
    }

    /// The class of an object that a line 11 declared.
    #[inline]
    fn class_of(&self, reference: u8) -> Option<u8> {
        let class = self.script.pool[reference as usize];
        (class != ABSENT).then_some(class)
    }

    fn take_link(&mut self, frame: &Frame) -> u8 {
        let link = link_of(frame);
        let ownerless = frame.kind() == 0x12;
        if !self.is_class(link.class) || !self.is_class(link.of) || !ownerless && link.owner == NONE {
            return 57;
        }
        let Some(target) = self.class_of(link.target) else { return self.missing_object(link.target) };
        // A static link has no owner to judge: its declaring class fits itself.
        let owner = if ownerless { Some(link.class) } else { self.class_of(link.owner) };
        let Some(owner) = owner else { return self.missing_object(link.owner) };
        let has_field = self.has_field(&link);
        if !has_field && !self.readings.wrong(Wrong::SixtyBefore57) {
            return 57;
        }
        let target_fits = self.fits_above(target, link.of) || self.readings.wrong(Wrong::TargetUnasked);
        let owner_fits = self.trust.is_under(owner, link.class) || self.readings.wrong(Wrong::OwnerUnasked);
        if !target_fits || !owner_fits {
            return 60;
        }
        if !has_field {
            return 57;
        }
        if self.readings.settled() || self.has_room_for(&link) {
            self.script.links.push(link);
        }
        0
    }

    /// Wrong readings of 58 let more link lines pass than there is room for.
    fn has_room_for(&self, link: &Link) -> bool {
        let known = self.readings.wrong(Wrong::RepeatedLinks) && self.script.links.contains(link);
        !known && !self.script.links.is_full()
    }

    fn missing_object(&self, reference: u8) -> u8 {
        if reference != NONE && self.readings.wrong(Wrong::StartReferenceFree) {
            0
        } else {
            57
        }
    }

    /// A start label or a link's type must be a supertype of the object's class; the class itself is one.
    fn fits_above(&self, class: u8, above: u8) -> bool {
        self.trust.is_under(class, above) && !(self.readings.wrong(Wrong::ProperStart) && class == above)
    }

    /// Whether a declared field fits the link: the class, the type, and static exactly if there is no owner.
    fn has_field(&self, link: &Link) -> bool {
        let either = self.readings.wrong(Wrong::LinkKindFree);
        let fits = |is_static: bool| either || is_static == (link.owner == NO_OWNER);
        let mut fields = self.package.fields.iter();
        fields.any(|field| field.class == link.class && field.of == link.of && fits(field.is_static))
            || self.readings.wrong(Wrong::LinkFree)
    }

    fn take_label(&mut self, frame: &Frame) -> u8 {
        let label = label_of(frame);
        if !self.is_class(label.class) {
            return 57;
        }
        let Some(class) = self.class_of(label.reference) else { return self.missing_object(label.reference) };
        if !self.fits_above(class, label.class) {
            return 60;
        }
        if !(self.readings.wrong(Wrong::RepeatedLabels) && self.script.labels.contains(&label)) {
            self.script.labels.push(label);
        }
        0
    }

    #[inline]
    fn take_step(&mut self, frame: &Frame) -> u8 {
        let Some(step) = self.step_of(frame) else { return 57 };
        if !self.readings.settled() && self.wrongly_refused(&step) {
            return 57;
        }
        self.script.steps.push(step);
        0
    }

    /// The step that a line of the right length says; None when it names something it may not.
    #[inline]
    fn step_of(&self, frame: &Frame) -> Option<Step> {
        let [kind, a, b, c, ..] = frame.bytes;
        let class = |number: u8| self.is_class(number).then_some(number);
        let field = |is_static: bool| self.package.fields.get(a as usize).filter(|field| field.is_static == is_static).map(|_| a);
        Some(match kind {
            0x20 => Step::Widen { r: reference(a)?, to: class(b)? },
            0x21 => Step::New { r: reference(a)?, of: class(b)? },
            0x22 => Step::Cast { r: reference(a)?, to: class(b)? },
            0x23 => Step::GetStatic { field: field(true)?, q: reference(b)? },
            0x24 => Step::PutStatic { field: field(true)?, q: reference(b)? },
            0x25 => Step::GetField { field: field(false)?, p: reference(b)?, q: reference(c)? },
            0x26 => Step::PutField { field: field(false)?, p: reference(b)?, q: reference(c)? },
            0x27 => Step::InvokeStatic { n: self.method(a, true)?, args: self.arguments(frame, a, 3)? },
            0x28 => Step::InvokeMethod {
                n: self.method(a, false)?,
                v: self.method(b, false)?,
                r0: reference(c)?,
                args: self.arguments(frame, a, 5)?,
            },
            _ => Step::Return { r: a },
        })
    }

    #[inline]
    fn method(&self, number: u8, is_static: bool) -> Option<u8> {
        self.package.methods.get(number as usize).filter(|method| method.is_static == is_static).map(|_| number)
    }

    /// The arguments behind the count, which must be the called method's.
    #[inline]
    fn arguments(&self, frame: &Frame, n: u8, begin: usize) -> Option<Arguments> {
        let count = frame.bytes[begin - 1];
        if count != self.package.methods[n as usize].param_count {
            return None;
        }
        let mut of = [0; 6];
        of[..count as usize].copy_from_slice(&frame.bytes[begin..begin + count as usize]);
        of[..count as usize].iter().all(|&r| r != NONE).then_some(Arguments { of, count })
    }

    /// The wrong readings that refuse a step while it is read.
    fn wrongly_refused(&mut self, step: &Step) -> bool {
        if let Step::New { r, .. } = *step {
            let known = self.class_of(r).is_some();
            self.script.named[r as usize] = true;
            return known && self.readings.wrong(Wrong::KnownNew);
        }
        if self.readings.wrong(Wrong::UnknownReference) {
            return references_of(step).iter().any(|&r| !self.script.named[r as usize]);
        }
        if let (Step::InvokeMethod { n, v, .. }, true) = (step, self.readings.wrong(Wrong::UnrelatedDispatch)) {
            return n != v && !self.package.overrides(self.trust, *v, *n);
        }
        false
    }
}

/// Whether the length fits the kind and its k.
#[inline]
fn fits(frame: &Frame) -> bool {
    match frame.kind() {
        0x12 | 0x25 | 0x26 => frame.len == 4,
        0x13 => frame.len == 5,
        0x27 => frame.fits_count(3),
        0x28 => frame.fits_count(5),
        0x10 | 0x29 => frame.len == 2,
        0x2F => frame.len == 1,
        _ => frame.len == 3,
    }
}

#[inline]
fn reference(byte: u8) -> Option<u8> {
    (byte != NONE).then_some(byte)
}

fn label_of(frame: &Frame) -> Label {
    Label { reference: frame.bytes[1], class: frame.bytes[2] }
}

fn link_of(frame: &Frame) -> Link {
    let [kind, a, b, c, d, ..] = frame.bytes;
    if kind == 0x12 {
        Link { owner: NO_OWNER, class: a, of: b, target: c }
    } else {
        Link { owner: a, class: b, of: c, target: d }
    }
}

fn references_of(step: &Step) -> Vec<u8> {
    match *step {
        Step::Widen { r, .. } | Step::New { r, .. } | Step::Cast { r, .. } => vec![r],
        Step::GetStatic { q, .. } | Step::PutStatic { q, .. } => vec![q],
        Step::GetField { p, q, .. } | Step::PutField { p, q, .. } => vec![p, q],
        Step::InvokeStatic { args, .. } => args.iter().collect(),
        Step::InvokeMethod { r0, args, .. } => std::iter::once(r0).chain(args.iter()).collect(),
        Step::Return { r } => {
            if r == NONE {
                vec![]
            } else {
                vec![r]
            }
        }
    }
}
