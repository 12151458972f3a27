// The package text: its tables, and the reader with the answers 1 to 9.
use crate::answer::{Answer, ACCEPTED};
use crate::list::List;
use crate::readings::{Readings, Wrong};
use crate::text::{Frame, Lines, LIMIT};
use crate::trust::Trust;

pub const MAX_DOMAINS: usize = 32;
pub const MAX_PAIRS: usize = 128;
pub const MAX_CLASSES: usize = 127;
pub const MAX_FIELDS: usize = 256;
pub const MAX_METHODS: usize = 256;
pub const MAX_EFFECTS: usize = 1024;
pub const MAX_SUPERS: usize = 4;
pub const MAX_PARAMS: usize = 6;

/// Stands for "no return type", and fills the parameters that a method does not have; no class has this number.
pub const NONE: u8 = 0xFF;

pub const NEW: u8 = 0;
pub const CHECKCAST: u8 = 1;
pub const GETSTATIC: u8 = 2;
pub const PUTSTATIC: u8 = 3;
pub const GETFIELD: u8 = 4;
pub const PUTFIELD: u8 = 5;
pub const INVOKESTATIC: u8 = 6;
pub const INVOKEMETHOD: u8 = 7;

#[derive(Clone, Copy, PartialEq, Eq, Debug)]
pub struct Class {
    pub domain: u8,
    pub supers: [u8; MAX_SUPERS],
    pub super_count: u8,
}

impl Class {
    #[inline]
    pub fn supers(&self) -> &[u8] {
        &self.supers[..self.super_count as usize]
    }
}

#[derive(Clone, Copy, PartialEq, Eq, Debug)]
pub struct Field {
    pub class: u8,
    pub of: u8,
    pub is_static: bool,
}

#[derive(Clone, Copy, PartialEq, Eq, Debug)]
pub struct Method {
    pub class: u8,
    pub label: u8,
    pub is_static: bool,
    pub slot: u16,
    pub result: u8,
    pub params: [u8; MAX_PARAMS],
    pub param_count: u8,
}

impl Method {
    #[inline]
    pub fn params(&self) -> &[u8] {
        &self.params[..self.param_count as usize]
    }

    /// Return type and parameter types in one word: equal words, equal signatures (the filler is no class).
    #[inline]
    pub fn signature(&self) -> u64 {
        let [a, b, c, d, e, f] = self.params;
        u64::from_le_bytes([a, b, c, d, e, f, self.result, 0])
    }
}

#[derive(Clone, Copy, PartialEq, Eq, Debug)]
pub struct Effect {
    pub method: u8,
    pub op: u8,
    pub target: u8,
}

#[derive(Clone)]
pub struct Package {
    pub domains: usize,
    /// Each pair (E, D) as listed: D dominates E.
    pub pairs: List<(u8, u8), MAX_PAIRS>,
    pub classes: List<Class, MAX_CLASSES>,
    pub fields: List<Field, MAX_FIELDS>,
    pub methods: List<Method, MAX_METHODS>,
    pub effects: List<Effect, MAX_EFFECTS>,
}

impl Package {
    pub fn new() -> Package {
        let method =
            Method { class: 0, label: 0, is_static: false, slot: 0, result: NONE, params: [NONE; MAX_PARAMS], param_count: 0 };
        Package {
            domains: 0,
            pairs: List::new((0, 0)),
            classes: List::new(Class { domain: 0, supers: [0; MAX_SUPERS], super_count: 0 }),
            fields: List::new(Field { class: 0, of: 0, is_static: false }),
            methods: List::new(method),
            effects: List::new(Effect { method: 0, op: 0, target: 0 }),
        }
    }

    /// Reads a text into this empty package; the answer is 0 or one of 1 to 9.
    pub fn read<R: Readings>(&mut self, text: &[u8], readings: R) -> Answer {
        if text.len() > LIMIT || readings.wrong(Wrong::LimitReached) && text.len() == LIMIT {
            return Answer::new(1, 0, 0);
        }
        let mut lines = Lines::new(text, readings);
        let mut frame = Frame::new();
        let mut last_kind = 1;
        while !lines.at_end() {
            let digits_fit = lines.read(&mut frame);
            let number = self.line_number(&lines, &frame, digits_fit, last_kind, readings);
            if number != 0 {
                return Answer::at_line(number, lines.line);
            }
            last_kind = frame.kind();
        }
        self.end(lines.line, last_kind, readings)
    }

    /// What one line answers; the frame is taken into the tables when it answers 0.
    #[inline]
    fn line_number<R: Readings>(&mut self, lines: &Lines<R>, frame: &Frame, digits_fit: bool, last_kind: u8, readings: R) -> u8 {
        if !digits_fit {
            return if readings.wrong(Wrong::AfterEnd) && last_kind == 7 { 5 } else { 2 };
        }
        if lines.line == 1 {
            self.take_header(frame, readings)
        } else {
            self.take_frame(frame, last_kind, readings)
        }
    }

    /// 9 when the text ended before its 07.
    fn end<R: Readings>(&self, lines: usize, last_kind: u8, readings: R) -> Answer {
        if lines > 0 && last_kind == 7 {
            return ACCEPTED;
        }
        if lines == 0 && readings.wrong(Wrong::EmptyText) {
            return Answer::at_line(2, 1);
        }
        let behind = if readings.wrong(Wrong::NineAtLastLine) { 0 } else { 1 };
        Answer::at_line(9, lines + behind)
    }

    fn take_header<R: Readings>(&mut self, frame: &Frame, readings: R) -> u8 {
        let [kind, generation, domains, ..] = frame.bytes;
        if readings.wrong(Wrong::FourBeforeThree) && frame.len == 3 && kind == 1 && generation != 2 {
            return 4;
        }
        if frame.len != 3 || kind != 1 || domains == 0 || domains as usize > MAX_DOMAINS {
            return 3;
        }
        if generation != 2 {
            return 4;
        }
        self.domains = domains as usize;
        0
    }

    /// 5, 8, 6, 7 in this order, as the table of numbers lists them.
    #[inline]
    fn take_frame<R: Readings>(&mut self, frame: &Frame, last_kind: u8, readings: R) -> u8 {
        let kind = frame.kind();
        if kind < 2 || kind > 7 || kind < last_kind || last_kind == 7 {
            return 5;
        }
        if self.is_full(kind) && !self.forgiven(frame, readings) {
            return self.number_of_surplus(frame, readings);
        }
        if !fits(frame, kind) {
            return if readings.wrong(Wrong::CountBeforeLength) && count_over_limit(frame, kind) { 7 } else { 6 };
        }
        let taken = match kind {
            2 => self.take_pair(frame, readings),
            3 => self.take_class(frame, readings),
            4 => self.take_field(frame, readings),
            5 => self.take_method(frame, readings),
            6 => self.take_effect(frame, readings),
            _ => true,
        };
        if taken {
            0
        } else {
            7
        }
    }

    #[inline]
    fn is_full(&self, kind: u8) -> bool {
        match kind {
            2 => self.pairs.is_full(),
            3 => self.classes.is_full(),
            4 => self.fields.is_full(),
            5 => self.methods.is_full(),
            6 => self.effects.is_full(),
            _ => false,
        }
    }

    /// Whether a wrong reading lets a frame pass that is one too many: the tables then know it already.
    fn forgiven<R: Readings>(&self, frame: &Frame, readings: R) -> bool {
        let [kind, a, b, c, ..] = frame.bytes;
        match kind {
            2 => readings.wrong(Wrong::RepeatedPairs) && frame.len == 3 && self.pairs.contains(&(a, b)),
            6 => {
                readings.wrong(Wrong::RepeatedEffects)
                    && frame.len == 4
                    && self.effects.contains(&Effect { method: a, op: b, target: c })
            }
            _ => false,
        }
    }

    /// 8, or what a wrong order would find first.
    fn number_of_surplus<R: Readings>(&mut self, frame: &Frame, readings: R) -> u8 {
        let fits = fits(frame, frame.kind());
        if !fits && (readings.wrong(Wrong::SixBeforeEight) || readings.wrong(Wrong::SevenBeforeEight)) {
            return 6;
        }
        if readings.wrong(Wrong::SevenBeforeEight) && fits && self.numbers_undeclared(frame) {
            return 7;
        }
        8
    }

    /// Whether a frame that is one too many has a number out of range as well; only a wrong reading asks.
    fn numbers_undeclared(&self, frame: &Frame) -> bool {
        let [kind, a, b, c, ..] = frame.bytes;
        let class = |number: u8| (number as usize) < self.classes.len();
        let domain = |number: u8| (number as usize) < self.domains;
        match kind {
            2 => !domain(a) || !domain(b),
            3 => !domain(a),
            4 => !class(a) || !class(b) || c > 1,
            5 => !class(a) || !domain(b) || c > 1,
            6 => a as usize >= self.methods.len() || b > 7 || !self.is_target(b, c),
            _ => false,
        }
    }

    fn take_pair<R: Readings>(&mut self, frame: &Frame, readings: R) -> bool {
        let [_, below, above, ..] = frame.bytes;
        if below as usize >= self.domains || above as usize >= self.domains {
            return false;
        }
        if !(readings.wrong(Wrong::RepeatedPairs) && self.pairs.contains(&(below, above))) {
            self.pairs.push((below, above));
        }
        true
    }

    fn take_class<R: Readings>(&mut self, frame: &Frame, readings: R) -> bool {
        let [_, domain, super_count, a, b, c, d, ..] = frame.bytes;
        if domain as usize >= self.domains || super_count as usize > MAX_SUPERS {
            return false;
        }
        let class = Class { domain, supers: [a, b, c, d], super_count };
        let own = self.classes.len() + readings.wrong(Wrong::SupertypeItself) as usize;
        if class.supers().iter().any(|&above| above as usize >= own) {
            return false;
        }
        self.classes.push(class);
        true
    }

    #[inline]
    fn is_class(&self, number: u8) -> bool {
        (number as usize) < self.classes.len()
    }

    fn take_field<R: Readings>(&mut self, frame: &Frame, readings: R) -> bool {
        let [_, class, of, is_static, ..] = frame.bytes;
        if !self.is_class(class) || !self.is_class(of) || is_static > 1 && !readings.wrong(Wrong::StaticByte) {
            return false;
        }
        self.fields.push(Field { class, of, is_static: is_static != 0 });
        true
    }

    fn take_method<R: Readings>(&mut self, frame: &Frame, readings: R) -> bool {
        let [_, class, label, is_static, high, low, result, param_count, a, b, c, d, e, f, ..] = frame.bytes;
        if !self.is_class(class) || label as usize >= self.domains || param_count as usize > MAX_PARAMS {
            return false;
        }
        if is_static > 1 && !readings.wrong(Wrong::StaticByte) || result != NONE && !self.is_class(result) {
            return false;
        }
        let (is_static, slot) = (is_static != 0, u16::from_be_bytes([high, low]));
        if is_static && slot != 0 && !readings.wrong(Wrong::StaticSlot)
            || !is_static && slot == 0 && !readings.wrong(Wrong::InstanceSlot)
        {
            return false;
        }
        let mut params = [a, b, c, d, e, f];
        if !params[..param_count as usize].iter().all(|&param| self.is_class(param)) {
            return false;
        }
        params[param_count as usize..].fill(NONE);
        self.methods.push(Method { class, label, is_static, slot, result, params, param_count });
        true
    }

    #[inline]
    fn take_effect<R: Readings>(&mut self, frame: &Frame, readings: R) -> bool {
        let [_, method, op, target, ..] = frame.bytes;
        let op = if readings.wrong(Wrong::OpMasked) { op & 7 } else { op };
        if method as usize >= self.methods.len() || op > INVOKEMETHOD {
            return false;
        }
        if !self.is_target(op, target) && !(readings.wrong(Wrong::TargetKind) && self.is_declared(op, target)) {
            return false;
        }
        let effect = Effect { method, op, target };
        if !(readings.wrong(Wrong::RepeatedEffects) && self.effects.contains(&effect)) {
            self.effects.push(effect);
        }
        true
    }

    /// Declared, of whatever static kind: what a wrong reading is content with.
    fn is_declared(&self, op: u8, target: u8) -> bool {
        let count = match op {
            NEW | CHECKCAST => self.classes.len(),
            INVOKESTATIC | INVOKEMETHOD => self.methods.len(),
            _ => self.fields.len(),
        };
        (target as usize) < count
    }

    /// Whether an op may name this number: declared, and of the op's static or instance kind.
    #[inline]
    fn is_target(&self, op: u8, target: u8) -> bool {
        let number = target as usize;
        match op {
            NEW | CHECKCAST => number < self.classes.len(),
            INVOKESTATIC | INVOKEMETHOD => {
                self.methods.get(number).is_some_and(|method| method.is_static == (op == INVOKESTATIC))
            }
            _ => self.fields.get(number).is_some_and(|field| field.is_static == (op <= PUTSTATIC)),
        }
    }
}

impl Package {
    /// n' overrides n: instance methods of one slot, and the class of n' is a proper subtype of n's.
    #[inline]
    pub fn overrides(&self, trust: &Trust, overrider: u8, overridden: u8) -> bool {
        let (n1, n) = (&self.methods[overrider as usize], &self.methods[overridden as usize]);
        !n1.is_static && !n.is_static && n1.slot == n.slot && n1.class != n.class && trust.is_under(n1.class, n.class)
    }
}

/// Whether the length fits the kind and its k, however large that k is.
#[inline]
fn fits(frame: &Frame, kind: u8) -> bool {
    match kind {
        2 => frame.len == 3,
        3 => frame.fits_count(3),
        5 => frame.fits_count(8),
        7 => frame.len == 1,
        _ => frame.len == 4,
    }
}

fn count_over_limit(frame: &Frame, kind: u8) -> bool {
    match kind {
        3 => frame.len >= 3 && frame.bytes[2] as usize > MAX_SUPERS,
        5 => frame.len >= 8 && frame.bytes[7] as usize > MAX_PARAMS,
        _ => false,
    }
}
