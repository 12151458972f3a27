// The last step of a walk, which the machine refuses: it lacks one thing, and where possible nothing else.
use super::packages::numbers;
use super::walks::Walker;
use crate::package::*;
use crate::readings::Readings;
use crate::script::{Arguments, Label, Link, Step, ABSENT, MAX_STEPS, NO_OWNER};

/// How often a step is tried, and how often of that a step that lacks something chance seldom leaves out.
const TRIES: usize = 400;
const SUBTLE_TRIES: usize = 80;

impl<R: Readings> Walker<'_, R> {
    /// Ends the walk with a step of a kind that is refused for the reason; steps that are taken on the way stay. False if none was found.
    pub fn end_refused(&mut self, reason: u8, kind: u8) -> bool {
        let subtle = if reason == 62 && self.random.chance(60) { SUBTLE_TRIES } else { 0 };
        let variant = self.random.below(3);
        for attempt in 0..TRIES {
            if self.steps.len() + 1 >= MAX_STEPS {
                return false;
            }
            let step = if attempt < subtle { self.subtle_step(kind, variant) } else { self.doubtful_step(reason, kind) };
            let Some(step) = step else {
                self.move_on(attempt < subtle);
                continue;
            };
            match self.machine.step(&step) {
                Ok(()) => self.steps.push(step),
                Err(number) if number == reason => {
                    self.steps.push(step);
                    return true;
                }
                Err(_) => {}
            }
        }
        false
    }

    /// Another state may offer what this one does not.
    fn move_on(&mut self, wanted: bool) {
        if wanted {
            self.advance();
        }
    }

    /// A step of a kind that may be refused for the reason.
    fn doubtful_step(&mut self, reason: u8, kind: u8) -> Option<Step> {
        let step = match kind {
            0x29 => self.doubtful_return(),
            0x20 => self.fitting_widen().unwrap_or(Step::Widen { r: self.random.byte() & 0x7F, to: 0 }),
            _ => {
                let op = kind - 0x21;
                let target = if reason == 61 { self.any_named(op)? } else { self.any_permitted(op)? };
                self.fitting(op, target).or_else(|| self.blind(op, target))?
            }
        };
        Some(if reason == 62 { self.bend(step) } else { step })
    }

    fn doubtful_return(&mut self) -> Step {
        let step = if self.random.chance(50) { self.fitting_return() } else { None };
        step.unwrap_or_else(|| Step::Return { r: self.any_return() })
    }

    /// A number that an effect of the running method permits for the op.
    fn any_permitted(&mut self, op: u8) -> Option<u8> {
        let running = self.machine.running().method as usize;
        let effects = self.effects_of[running].iter().filter(|effect| effect.op == op);
        let targets: Vec<u8> = effects.map(|effect| effect.target).collect();
        self.random.pick(&targets).copied()
    }

    /// A step that lacks just one thing which chance seldom leaves out: something is held, or linked, at a subtype of what is asked, an
    /// object is not under the class of the method that is to run, or a label is of no use though the object would fit.
    fn subtle_step(&mut self, kind: u8, variant: usize) -> Option<Step> {
        match kind {
            0x20 => self.widen_by_object(),
            0x22 => self.cast_of_another(),
            0x23 | 0x25 => self.nearly_get(kind - 0x21),
            0x24 | 0x26 => self.nearly_put(kind - 0x21),
            0x27 => {
                let n = self.any_permitted(INVOKESTATIC)?;
                Some(Step::InvokeStatic { n, args: self.nearly_arguments(n)? })
            }
            0x28 => self.nearly_call(variant),
            0x29 => {
                let awaited = self.machine.running().awaited;
                let label = if awaited == NONE { self.any_label(|_| true) } else { self.label_below(awaited) };
                Some(Step::Return { r: label?.reference })
            }
            _ => None,
        }
    }

    /// Whether the running frame holds the reference at a subtype of the class.
    fn held_under(&self, reference: u8, class: u8) -> bool {
        let labels = &self.machine.running().labels;
        labels.iter().any(|label| label.reference == reference && self.trust.is_under(label.class, class))
    }

    /// Held objects that fit a class by their own class, but with no label.
    fn fitting_objects(&self, class: u8) -> Vec<u8> {
        let pool = &self.machine.pool;
        let held = self.machine.running().labels.iter().map(|label| label.reference);
        held.filter(|&r| self.trust.is_under(pool[r as usize], class) && !self.held_under(r, class)).collect()
    }

    /// Widening to what the object is, but no label says.
    fn widen_by_object(&mut self) -> Option<Step> {
        let to = self.random.below(self.package.classes.len()) as u8;
        let objects = self.fitting_objects(to);
        Some(Step::Widen { r: *self.random.pick(&objects)?, to })
    }

    /// A cast that would fit, of an object that the frame does not hold.
    fn cast_of_another(&mut self) -> Option<Step> {
        let to = self.any_permitted(CHECKCAST)?;
        let frame = self.machine.running();
        let absent = |r: u8| frame.labels.iter().all(|label| label.reference != r);
        let fits = |r: u8| self.machine.pool[r as usize] != ABSENT && self.trust.is_under(self.machine.pool[r as usize], to);
        let objects: Vec<u8> = (0..255).filter(|&r| absent(r) && fits(r)).collect();
        Some(Step::Cast { r: *self.random.pick(&objects)?, to })
    }

    /// A label that stands for the class only after widening.
    fn label_below(&mut self, class: u8) -> Option<Label> {
        let trust = self.trust;
        self.any_label(|label| label.class != class && trust.is_under(label.class, class))
    }

    fn nearly_get(&mut self, op: u8) -> Option<Step> {
        let named = self.any_permitted(op)?;
        let (field, trust) = (self.package.fields[named as usize], self.trust);
        let same = |link: &&Link| (link.owner == NO_OWNER) == field.is_static && link.class == field.class;
        let link =
            *self.machine.links.iter().filter(same).find(|link| link.of != field.of && trust.is_under(link.of, field.of))?;
        Some(if op == GETSTATIC {
            Step::GetStatic { field: named, q: link.target }
        } else {
            Step::GetField { field: named, p: link.owner, q: link.target }
        })
    }

    fn nearly_put(&mut self, op: u8) -> Option<Step> {
        let named = self.any_permitted(op)?;
        let (field, trust) = (self.package.fields[named as usize], self.trust);
        let q = self.label_below(field.of)?.reference;
        if op == PUTSTATIC {
            return Some(Step::PutStatic { field: named, q });
        }
        let p = self.any_label(|label| trust.is_under(label.class, field.class))?.reference;
        Some(Step::PutField { field: named, p, q })
    }

    fn nearly_arguments(&mut self, n: u8) -> Option<Arguments> {
        let params = self.package.methods[n as usize].params();
        let mut args = Arguments { of: [0; 6], count: params.len() as u8 };
        for (place, &param) in params.iter().enumerate() {
            let exact = self.any_label(|label| label.class == param);
            let label = if self.random.chance(50) {
                self.label_below(param).or(exact)
            } else {
                exact.or_else(|| self.label_below(param))
            };
            args.of[place] = label?.reference;
        }
        Some(args)
    }

    /// A call on an object that no label makes fit, or for which v is too special, or with arguments held at subtypes.
    fn nearly_call(&mut self, variant: usize) -> Option<Step> {
        let n = self.any_permitted(INVOKEMETHOD)?;
        let (trust, class) = (self.trust, self.package.methods[n as usize].class);
        let (v, r0, args) = match variant {
            0 => {
                let objects = self.fitting_objects(class);
                (n, *self.random.pick(&objects)?, self.fitting_arguments(n)?)
            }
            1 => {
                let label = self.any_label(|label| trust.is_under(label.class, class))?;
                (self.too_special(n, label.reference)?, label.reference, self.fitting_arguments(n)?)
            }
            _ => (n, self.any_label(|label| trust.is_under(label.class, class))?.reference, self.nearly_arguments(n)?),
        };
        Some(Step::InvokeMethod { n, v, r0, args })
    }

    /// A method that overrides n in a class that the object is not under.
    fn too_special(&mut self, n: u8, r0: u8) -> Option<u8> {
        let own = self.machine.pool[r0 as usize];
        let class = |v: u8| self.package.methods[v as usize].class;
        let special = |v: u8| self.package.overrides(self.trust, v, n) && !self.trust.is_under(own, class(v));
        let candidates: Vec<u8> = (0..self.package.methods.len()).map(|v| v as u8).filter(|&v| special(v)).collect();
        self.random.pick(&candidates).copied()
    }

    fn any_return(&mut self) -> u8 {
        match self.any_label(|_| true) {
            Some(label) if self.random.chance(60) => label.reference,
            _ if self.random.chance(50) => NONE,
            _ => self.random.byte(),
        }
    }

    fn any_named(&mut self, op: u8) -> Option<u8> {
        let fits = match op {
            NEW | CHECKCAST => (0..self.package.classes.len() as u8).collect(),
            INVOKESTATIC | INVOKEMETHOD => numbers(&self.package.methods, |method| method.is_static == (op == INVOKESTATIC)),
            _ => numbers(&self.package.fields, |field| field.is_static == (op <= PUTSTATIC)),
        };
        self.random.pick(&fits).copied()
    }

    fn any_reference(&mut self) -> u8 {
        let known: Vec<u8> = (0..255).filter(|&r| self.machine.pool[r as usize] != ABSENT).collect();
        match self.random.below(3) {
            0 => self.random.below(255) as u8,
            1 => self.random.pick(&known).copied().unwrap_or(0),
            _ => self.any_label(|_| true).map_or(1, |label| label.reference),
        }
    }

    /// A step whose references are any.
    fn blind(&mut self, op: u8, target: u8) -> Option<Step> {
        let (p, q) = (self.any_reference(), self.any_reference());
        let mut args = Arguments { of: [0; 6], count: 0 };
        if op >= INVOKESTATIC {
            args.count = self.package.methods[target as usize].param_count;
            for place in 0..args.count as usize {
                args.of[place] = self.any_reference();
            }
        }
        Some(match op {
            NEW => Step::New { r: p, of: target },
            CHECKCAST => Step::Cast { r: p, to: target },
            GETSTATIC => Step::GetStatic { field: target, q },
            PUTSTATIC => Step::PutStatic { field: target, q },
            GETFIELD => Step::GetField { field: target, p, q },
            PUTFIELD => Step::PutField { field: target, p, q },
            INVOKESTATIC => Step::InvokeStatic { n: target, args },
            _ => Step::InvokeMethod { n: target, v: self.any_instance(target), r0: p, args },
        })
    }

    /// Any instance method, mostly one of the same slot.
    fn any_instance(&mut self, n: u8) -> u8 {
        let slot = self.package.methods[n as usize].slot;
        let alike = numbers(&self.package.methods, |method| !method.is_static && method.slot == slot);
        let all = numbers(&self.package.methods, |method| !method.is_static);
        let among = if self.random.chance(70) { alike } else { all };
        self.random.pick(&among).copied().unwrap_or(n)
    }

    /// Changes one reference, class or method of a step.
    fn bend(&mut self, step: Step) -> Step {
        let other = self.any_reference();
        let class = self.random.below(self.package.classes.len()) as u8;
        let first = self.random.chance(50);
        match step {
            Step::Widen { r, to } => {
                if first {
                    Step::Widen { r: other, to }
                } else {
                    Step::Widen { r, to: class }
                }
            }
            Step::New { of, .. } => Step::New { r: other, of },
            Step::Cast { to, .. } => Step::Cast { r: other, to },
            Step::GetStatic { field, .. } => Step::GetStatic { field, q: other },
            Step::PutStatic { field, .. } => Step::PutStatic { field, q: other },
            Step::GetField { field, p, q } => {
                if first {
                    Step::GetField { field, p: other, q }
                } else {
                    Step::GetField { field, p, q: other }
                }
            }
            Step::PutField { field, p, q } => {
                if first {
                    Step::PutField { field, p: other, q }
                } else {
                    Step::PutField { field, p, q: other }
                }
            }
            Step::InvokeStatic { n, args } => Step::InvokeStatic { n, args: self.bend_arguments(args, other) },
            Step::InvokeMethod { n, v, r0, args } => match self.random.below(3) {
                0 => Step::InvokeMethod { n, v, r0: other, args },
                1 => Step::InvokeMethod { n, v: self.any_instance(n), r0, args },
                _ => Step::InvokeMethod { n, v, r0, args: self.bend_arguments(args, other) },
            },
            Step::Return { .. } => Step::Return { r: if first { other } else { NONE } },
        }
    }

    fn bend_arguments(&mut self, mut args: Arguments, other: u8) -> Arguments {
        if args.count > 0 {
            args.of[self.random.below(args.count as usize)] = other;
        }
        args
    }
}
