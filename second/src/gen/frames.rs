// Packages and scripts as frames, and frames as text.
use crate::package::{Class, Effect, Field, Method, Package};
use crate::script::{Label, Link, Step, NO_OWNER};
use crate::text::write_line;

pub type Frames = Vec<Vec<u8>>;

pub fn text_of(frames: &[Vec<u8>]) -> Vec<u8> {
    let mut text = Vec::new();
    for frame in frames {
        write_line(frame, &mut text);
    }
    text
}

pub fn package_frames(package: &Package) -> Frames {
    let mut frames = vec![vec![0x01, 0x02, package.domains as u8]];
    frames.extend(package.pairs.iter().map(|&(below, above)| vec![0x02, below, above]));
    frames.extend(package.classes.iter().map(class_frame));
    frames.extend(package.fields.iter().map(field_frame));
    frames.extend(package.methods.iter().map(method_frame));
    frames.extend(package.effects.iter().map(effect_frame));
    frames.push(vec![0x07]);
    frames
}

pub fn package_text(package: &Package) -> Vec<u8> {
    text_of(&package_frames(package))
}

pub fn class_frame(class: &Class) -> Vec<u8> {
    let mut frame = vec![0x03, class.domain, class.super_count];
    frame.extend_from_slice(class.supers());
    frame
}

pub fn field_frame(field: &Field) -> Vec<u8> {
    vec![0x04, field.class, field.of, field.is_static as u8]
}

pub fn method_frame(method: &Method) -> Vec<u8> {
    let [high, low] = method.slot.to_be_bytes();
    let mut frame = vec![0x05, method.class, method.label, method.is_static as u8, high, low, method.result, method.param_count];
    frame.extend_from_slice(method.params());
    frame
}

pub fn effect_frame(effect: &Effect) -> Vec<u8> {
    vec![0x06, effect.method, effect.op, effect.target]
}

pub fn link_frame(link: &Link) -> Vec<u8> {
    if link.owner == NO_OWNER {
        vec![0x12, link.class, link.of, link.target]
    } else {
        vec![0x13, link.owner, link.class, link.of, link.target]
    }
}

pub fn label_frame(label: &Label) -> Vec<u8> {
    vec![0x14, label.reference, label.class]
}

pub fn step_frame(step: &Step) -> Vec<u8> {
    match *step {
        Step::Widen { r, to } => vec![0x20, r, to],
        Step::New { r, of } => vec![0x21, r, of],
        Step::Cast { r, to } => vec![0x22, r, to],
        Step::GetStatic { field, q } => vec![0x23, field, q],
        Step::PutStatic { field, q } => vec![0x24, field, q],
        Step::GetField { field, p, q } => vec![0x25, field, p, q],
        Step::PutField { field, p, q } => vec![0x26, field, p, q],
        Step::InvokeStatic { n, args } => [0x27, n, args.count].into_iter().chain(args.iter()).collect(),
        Step::InvokeMethod { n, v, r0, args } => [0x28, n, v, r0, args.count].into_iter().chain(args.iter()).collect(),
        Step::Return { r } => vec![0x29, r],
    }
}
