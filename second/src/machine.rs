// The machine of 003, Fig. 4: its state in flat arrays, and its ten steps with the answers 61 to 64.
use crate::list::List;
use crate::package::{
    Package, CHECKCAST, GETFIELD, GETSTATIC, INVOKEMETHOD, INVOKESTATIC, MAX_FIELDS, NEW, NONE, PUTFIELD, PUTSTATIC,
};
use crate::readings::{Readings, Wrong};
use crate::script::{Arguments, Label, Link, Script, Step, ABSENT, MAX_LABELS, MAX_LINKS, NO_OWNER};
use crate::trust::Trust;

pub const MAX_SAVED: usize = 16;

/// Why a step is refused.
pub const NO_CALLER: u8 = 64;
pub const NO_EFFECT: u8 = 61;
pub const NO_PREMISE: u8 = 62;
pub const NO_ROOM: u8 = 63;

/// A frame with its running method, and the type that its caller waits for.
#[derive(Clone)]
pub struct Frame {
    pub method: u8,
    pub awaited: u8,
    pub labels: List<Label, MAX_LABELS>,
}

impl Frame {
    fn new(method: u8, awaited: u8) -> Frame {
        Frame { method, awaited, labels: List::new(Label { reference: 0, class: 0 }) }
    }

    #[inline]
    fn holds(&self, reference: u8, class: u8) -> bool {
        Label { reference, class }.is_among(&self.labels)
    }

    #[inline]
    fn any_label(&self, reference: u8, test: impl Fn(u8) -> bool) -> bool {
        self.labels.iter().any(|label| label.reference == reference && test(label.class))
    }

    /// Adds a label that has room.
    #[inline]
    fn add(&mut self, reference: u8, class: u8) {
        if !self.holds(reference, class) {
            self.labels.push(Label { reference, class });
        }
    }
}

/// What the effects permit.
struct Permits {
    /// For each method a bit for each op and number.
    rows: Vec<[u64; 32]>,
    /// Effects and steps speak of a field by its class and type: for each field the first one like it stands for all of them.
    alike: [u8; MAX_FIELDS],
}

impl Permits {
    fn of<R: Readings>(package: &Package, readings: R) -> Permits {
        let mut permits = Permits { rows: vec![[0; 32]; package.methods.len()], alike: alike(package, readings) };
        for effect in package.effects.iter() {
            let named = permits.named(effect.op, effect.target);
            permits.rows[effect.method as usize][word(effect.op, named)] |= 1 << (named & 63);
        }
        permits
    }

    #[inline]
    fn named(&self, op: u8, target: u8) -> u8 {
        if (GETSTATIC..=PUTFIELD).contains(&op) {
            self.alike[target as usize]
        } else {
            target
        }
    }

    #[inline]
    fn has(&self, method: u8, op: u8, target: u8) -> bool {
        let named = self.named(op, target);
        self.rows[method as usize][word(op, named)] >> (named & 63) & 1 != 0
    }
}

#[inline]
fn word(op: u8, named: u8) -> usize {
    op as usize * 4 + named as usize / 64
}

/// For each field the first one of its class, type and static kind: they stand side by side when sorted.
fn alike<R: Readings>(package: &Package, readings: R) -> [u8; MAX_FIELDS] {
    let mut words = [0u32; MAX_FIELDS];
    let words = &mut words[..package.fields.len()];
    for (number, field) in package.fields.iter().enumerate() {
        words[number] = u32::from_be_bytes([field.class, field.of, field.is_static as u8, number as u8]);
    }
    words.sort_unstable();
    let mut first = [0; MAX_FIELDS];
    let mut group = u32::MAX;
    for &word in words.iter() {
        if word >> 8 != group >> 8 || readings.wrong(Wrong::FieldExact) {
            group = word;
        }
        first[(word & 0xFF) as usize] = group as u8;
    }
    first
}

pub struct Machine<'a, R> {
    package: &'a Package,
    trust: &'a Trust,
    readings: R,
    permits: Permits,
    /// The class of each object, or `ABSENT`.
    pub pool: [u8; 256],
    pub links: List<Link, MAX_LINKS>,
    /// The saved frames, the oldest first, and then the running one.
    pub frames: Vec<Frame>,
}

type Taken = Result<(), u8>;

/// A premise, with the number that its lack answers.
#[inline]
fn need(number: u8, premise: bool) -> Taken {
    if premise {
        Ok(())
    } else {
        Err(number)
    }
}

impl<'a, R: Readings> Machine<'a, R> {
    /// The start that a script declares.
    pub fn start(package: &'a Package, trust: &'a Trust, script: &Script, readings: R) -> Self {
        let mut frame = Frame::new(script.entry, NONE);
        for label in script.labels.iter() {
            if readings.wrong(Wrong::BagOfLabels) {
                frame.labels.push(*label);
            } else {
                frame.add(label.reference, label.class);
            }
        }
        let mut links = List::new(Link { owner: 0, class: 0, of: 0, target: 0 });
        for link in script.links.iter() {
            if readings.wrong(Wrong::BagOfLinks) || !link.is_among(&links) {
                links.push(*link);
            }
        }
        let mut frames = Vec::with_capacity(MAX_SAVED + 1);
        frames.push(frame);
        Machine { package, trust, readings, permits: Permits::of(package, readings), pool: script.pool, links, frames }
    }

    #[inline]
    pub fn running(&self) -> &Frame {
        self.frames.last().expect("a frame is always running")
    }

    #[inline]
    fn running_mut(&mut self) -> &mut Frame {
        self.frames.last_mut().expect("a frame is always running")
    }

    /// Takes a step, or refuses it with its number and changes nothing.
    #[inline]
    pub fn step(&mut self, step: &Step) -> Taken {
        match *step {
            Step::Widen { r, to } => self.widen(r, to),
            Step::New { r, of } => self.new_object(r, of),
            Step::Cast { r, to } => self.cast(r, to),
            Step::GetStatic { field, q } => self.get(GETSTATIC, field, NO_OWNER, q),
            Step::GetField { field, p, q } => self.get(GETFIELD, field, p, q),
            Step::PutStatic { field, q } => self.put(PUTSTATIC, field, NO_OWNER, q),
            Step::PutField { field, p, q } => self.put(PUTFIELD, field, p, q),
            Step::InvokeStatic { n, args } => self.invoke_static(n, &args),
            Step::InvokeMethod { n, v, r0, args } => self.invoke_method(n, v, r0, &args),
            Step::Return { r } => self.give_back(r),
        }
    }

    /// 61, 62, 63 in this order; wrong readings turn it.
    #[inline]
    fn judge(&self, effect: bool, premises: bool, room: bool) -> Taken {
        if self.readings.wrong(Wrong::PremiseBeforeEffect) {
            need(NO_PREMISE, premises)?;
        }
        need(NO_EFFECT, effect)?;
        if self.readings.wrong(Wrong::RoomBeforePremise) {
            need(NO_ROOM, room)?;
        }
        need(NO_PREMISE, premises)?;
        need(NO_ROOM, room)
    }

    #[inline]
    fn permitted(&self, op: u8, named: u8) -> bool {
        self.permits.has(self.running().method, op, named)
    }

    /// Room in a frame: an item already there needs none.
    #[inline]
    fn has_room(&self, frame: &Frame, reference: u8, class: u8) -> bool {
        let limit = if self.readings.wrong(Wrong::ThirtyOneLabels) { MAX_LABELS - 1 } else { MAX_LABELS };
        frame.labels.len() < limit || frame.holds(reference, class) && !self.readings.wrong(Wrong::FullRefusesKnown)
    }

    #[inline]
    fn class_of(&self, reference: u8) -> Option<u8> {
        let class = self.pool[reference as usize];
        (class != ABSENT).then_some(class)
    }

    /// Whether the object's own class is under another.
    #[inline]
    fn object_under(&self, reference: u8, class: u8) -> bool {
        self.class_of(reference).is_some_and(|own| self.trust.is_under(own, class))
    }

    /// Whether the running frame holds the reference at a subtype of the class.
    #[inline]
    fn held_under(&self, reference: u8, class: u8) -> bool {
        self.running().any_label(reference, |label| self.trust.is_under(label, class))
    }

    fn widen(&mut self, r: u8, to: u8) -> Taken {
        let held = if self.readings.wrong(Wrong::WidenOwnClass) {
            self.running().any_label(r, |_| true) && self.object_under(r, to)
        } else {
            self.held_under(r, to)
        };
        self.judge(true, held, self.has_room(self.running(), r, to))?;
        self.running_mut().add(r, to);
        Ok(())
    }

    fn new_object(&mut self, r: u8, of: u8) -> Taken {
        let room = self.has_room(self.running(), r, of);
        let judged = self.judge(self.permitted(NEW, of), self.class_of(r).is_none(), room);
        if judged.is_ok() || self.readings.wrong(Wrong::RefusedChanges) && room {
            self.pool[r as usize] = of;
            self.running_mut().add(r, of);
        }
        judged
    }

    fn cast(&mut self, r: u8, to: u8) -> Taken {
        let held = self.running().any_label(r, |_| true) || self.readings.wrong(Wrong::CastUnheld);
        let under = if self.readings.wrong(Wrong::CastByLabel) { self.held_under(r, to) } else { self.object_under(r, to) };
        self.judge(self.permitted(CHECKCAST, to), held && under, self.has_room(self.running(), r, to))?;
        self.running_mut().add(r, to);
        Ok(())
    }

    /// The link that a field step is about, and whether an effect permits the step.
    #[inline]
    fn link_of(&self, op: u8, field: u8, owner: u8, target: u8) -> (Link, bool) {
        let declared = &self.package.fields[field as usize];
        let link = Link { owner, class: declared.class, of: declared.of, target };
        (link, self.permitted(op, field))
    }

    /// The owner of an object link is held at a subtype of the declaring class; a static link has none.
    #[inline]
    fn owner_held(&self, link: &Link) -> bool {
        if link.owner == NO_OWNER {
            return true;
        }
        if self.readings.wrong(Wrong::OwnerExact) {
            return self.running().holds(link.owner, link.class);
        }
        self.held_under(link.owner, link.class)
    }

    fn get(&mut self, op: u8, field: u8, owner: u8, target: u8) -> Taken {
        let (link, effect) = self.link_of(op, field, owner, target);
        let linked = if self.readings.wrong(Wrong::ReadsWiden) {
            let serves = |other: &Link| Link { of: link.of, ..*other } == link && self.trust.is_under(other.of, link.of);
            self.links.iter().any(serves)
        } else {
            link.is_among(&self.links)
        };
        self.judge(effect, linked && self.owner_held(&link), self.has_room(self.running(), target, link.of))?;
        self.running_mut().add(target, link.of);
        Ok(())
    }

    fn put(&mut self, op: u8, field: u8, owner: u8, target: u8) -> Taken {
        let (link, effect) = self.link_of(op, field, owner, target);
        let held = self.holds_value(target, link.of, Wrong::WritesWiden) && self.owner_held(&link);
        let known = link.is_among(&self.links);
        let limit = if self.readings.wrong(Wrong::LinksShort) { MAX_LINKS - 1 } else { MAX_LINKS };
        let room = self.links.len() < limit || known && !self.readings.wrong(Wrong::FullRefusesKnown);
        self.judge(effect, held && !self.taken_by_another(&link), room)?;
        if !known {
            self.links.push(link);
        }
        Ok(())
    }

    /// Whether the field has another target, which only a wrong reading minds.
    fn taken_by_another(&self, link: &Link) -> bool {
        let another = |other: &Link| Link { target: link.target, ..*other } == *link && other.target != link.target;
        self.readings.wrong(Wrong::OneTarget) && self.links.iter().any(another)
    }

    /// Values are held with exactly the declared type; a wrong reading lets them widen.
    #[inline]
    fn holds_value(&self, reference: u8, class: u8, widens: Wrong) -> bool {
        self.running().holds(reference, class) || self.readings.wrong(widens) && self.held_under(reference, class)
    }

    #[inline]
    fn holds_arguments(&self, n: u8, args: &Arguments) -> bool {
        let params = self.package.methods[n as usize].params();
        args.iter().zip(params).all(|(r, &param)| self.holds_value(r, param, Wrong::ArgumentsWiden))
    }

    fn invoke_static(&mut self, n: u8, args: &Arguments) -> Taken {
        self.judge(self.permitted(INVOKESTATIC, n), self.holds_arguments(n, args), self.has_frame())?;
        self.call(n, n, None, args);
        Ok(())
    }

    fn invoke_method(&mut self, n: u8, v: u8, r0: u8, args: &Arguments) -> Taken {
        let effect = self.permitted(INVOKEMETHOD, if self.readings.wrong(Wrong::EffectNamesRunning) { v } else { n });
        let premises = self.dispatches(n, v, r0) && self.receiver_held(n, v, r0) && self.holds_arguments(n, args);
        self.judge(effect, premises, self.has_frame())?;
        let runs = if self.readings.wrong(Wrong::RunsCalled) { n } else { v };
        self.call(n, runs, Some(r0), args);
        Ok(())
    }

    /// v is n or overrides it, and the object's own class is under v's.
    #[inline]
    fn dispatches(&self, n: u8, v: u8, r0: u8) -> bool {
        let class = self.package.methods[v as usize].class;
        let own_class = self.object_under(r0, class) || self.readings.wrong(Wrong::ReceiverOwnClass);
        (v == n || self.package.overrides(self.trust, v, n)) && own_class && !self.overruled(v, r0)
    }

    /// Whether a more special method would fit the object, which only a wrong reading minds.
    fn overruled(&self, v: u8, r0: u8) -> bool {
        let special =
            |o: u8| self.package.overrides(self.trust, o, v) && self.object_under(r0, self.package.methods[o as usize].class);
        self.readings.wrong(Wrong::MostSpecific) && (0..self.package.methods.len()).any(|o| special(o as u8))
    }

    #[inline]
    fn receiver_held(&self, n: u8, v: u8, r0: u8) -> bool {
        let class = self.package.methods[n as usize].class;
        if self.readings.wrong(Wrong::ReceiverExact) {
            return self.running().holds(r0, class);
        }
        if self.readings.wrong(Wrong::ReceiverAnyLabel) {
            return self.running().any_label(r0, |_| true);
        }
        if self.readings.wrong(Wrong::ReceiverByRunning) {
            return self.held_under(r0, self.package.methods[v as usize].class);
        }
        self.held_under(r0, class)
    }

    #[inline]
    fn has_frame(&self) -> bool {
        let limit = if self.readings.wrong(Wrong::FifteenSaved) { MAX_SAVED - 1 } else { MAX_SAVED };
        self.frames.len() <= limit
    }

    /// Begins the frame of the method that runs; n is the one that was called.
    #[inline]
    fn call(&mut self, n: u8, runs: u8, receiver: Option<u8>, args: &Arguments) {
        let called = &self.package.methods[n as usize];
        let mut frame = Frame::new(runs, called.result);
        if let Some(r0) = receiver {
            let named = if self.readings.wrong(Wrong::ReceiverLabelledCalled) { n } else { runs };
            frame.add(r0, self.package.methods[named as usize].class);
        }
        for (r, &param) in args.iter().zip(called.params()) {
            let class = if self.readings.wrong(Wrong::ArgumentsOwnClass) { self.pool[r as usize] } else { param };
            frame.add(r, class);
        }
        self.frames.push(frame);
    }

    /// 64, 62, 63 in this order.
    fn give_back(&mut self, r: u8) -> Taken {
        let awaited = self.returned_type();
        let fits = self.return_fits(r, awaited);
        if self.readings.wrong(Wrong::ReturnsFirst) {
            need(NO_PREMISE, fits)?;
        }
        need(NO_CALLER, self.frames.len() > 1)?;
        let caller = &self.frames[self.frames.len() - 2];
        let nothing = r == NONE || awaited == NONE;
        self.judge(true, fits, nothing || self.has_room(caller, r, awaited))?;
        self.frames.pop();
        if !nothing {
            self.running_mut().add(r, awaited);
        }
        Ok(())
    }

    /// What the caller waits for; the entry method has none and is never asked but by a wrong reading.
    #[inline]
    fn returned_type(&self) -> u8 {
        let frame = self.running();
        if self.frames.len() > 1 {
            frame.awaited
        } else {
            self.package.methods[frame.method as usize].result
        }
    }

    /// FF fits exactly the methods without return type, a reference only what is held at the type.
    #[inline]
    fn return_fits(&self, r: u8, awaited: u8) -> bool {
        match (r, awaited) {
            (NONE, NONE) => true,
            (NONE, _) => self.readings.wrong(Wrong::ReturnNothing),
            (_, NONE) => self.readings.wrong(Wrong::ReturnDropped),
            _ => self.holds_value(r, awaited, Wrong::ReturnsWiden),
        }
    }
}
