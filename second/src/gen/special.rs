// Fixed packages and runs for benchmarks and examples: the largest, the longest, the fullest.
use super::cases::{Case, Program};
use super::frames::{label_frame, link_frame, package_frames, package_text, step_frame, text_of};
use super::packages::{Builder, Size, LARGEST};
use super::random::Random;
use super::walks::{Manner, Start, Walker};
use crate::package::*;
use crate::program::cut;
use crate::readings::Settled;
use crate::script::{Arguments, Label, Link, Step, MAX_STEPS, NO_OWNER};
use crate::trust::Trust;

/// What can be had by name: packages as `check` reads them, and runs as `run` reads them.
pub const NAMES: [&str; 15] = [
    "smallest",
    "largest",
    "largest-16",
    "largest-32",
    "largest-64",
    "largest-breaks-30",
    "refused-last-line",
    "walk",
    "ping-pong",
    "links",
    "full",
    "refused-step",
    "full-frame",
    "full-saved",
    "worked",
];

pub fn special(name: &str) -> Option<Vec<u8>> {
    Some(match name {
        "smallest" => b"010201\n07\n".to_vec(),
        "largest" => package_text(&sized(MAX_CLASSES)),
        "largest-16" => package_text(&sized(16)),
        "largest-32" => package_text(&sized(32)),
        "largest-64" => package_text(&sized(64)),
        "largest-breaks-30" => package_text(&breaks_30_last()),
        "refused-last-line" => refused_last_line(),
        "walk" => walk(),
        "ping-pong" => ping_pong(),
        "links" => links(),
        "full" => full(),
        "refused-step" => {
            over_largest(&Start { entry: HUB, objects: vec![], links: vec![], labels: vec![] }, &[Step::New { r: 0, of: 5 }])
        }
        "full-frame" => full_frame(),
        "full-saved" => full_saved(),
        "worked" => WORKED.to_vec(),
        _ => return None,
    })
}

/// Every fixed package and run as a case.
pub fn cases() -> Vec<Case> {
    let program = |input: &[u8]| if cut(input, Settled) < input.len() { Program::Run } else { Program::Check };
    NAMES.iter().filter_map(|name| special(name)).map(|input| Case { program: program(&input), input }).collect()
}

/// Document 01's worked run.
pub const WORKED: &[u8] =
    b"010205\n020102\n020103\n020204\n020304\n030000\n03010100\n03020101\n03030101\n03040100\n050404010000FF00\n\
050303000001FF0101\n06000002\n06000003\n06000701\n07\n1000\n210002\n210103\n200001\n280101010100\n2F\n";

/// The static method that may do everything, and the instance methods of slot 1 that may, too.
const HUB: u8 = 0;
const CALLED: u8 = 1;
const OVERRIDER: u8 = 2;

/// The class of the hub, the next of its column, which is under it in the same domain, and the class above all.
const HUB_CLASS: u8 = 1;
const UNDER_HUB: u8 = 4;
const TOP_CLASS: u8 = 0;

/// Fields of the hub's class: a static one and an instance one of the top class, and an instance one of its own.
const STATIC_FIELD: u8 = 0;
const INSTANCE_FIELD: u8 = 1;
const OWN_FIELD: u8 = 2;

/// An accepted package with all limits scaled to a number of classes; with 127, every limit at once. Every class but the first has
/// four supertypes and every method six parameters.
pub fn sized(classes: usize) -> Package {
    let random = &mut Random::new(2006, classes as u64);
    let mut builder = Builder::new(random, 0);
    let domains = classes.div_ceil(4).clamp(4, MAX_DOMAINS);
    add_ladder(&mut builder, domains, (classes + 1).min(MAX_PAIRS));
    add_columns(&mut builder, domains, classes);
    let size = Size {
        domains,
        classes,
        fields: (2 * classes + 2).min(MAX_FIELDS),
        methods: (2 * classes + 2).min(MAX_METHODS),
        effects: (8 * classes + 8).min(MAX_EFFECTS),
        ..LARGEST
    };
    add_hub(&mut builder);
    let (fields, methods) = (builder.package.fields.len(), builder.package.methods.len());
    builder.add_fields(&Size { fields: size.fields - fields, ..size });
    add_rows(&mut builder, size.methods - methods);
    add_hub_effects(&mut builder);
    builder.add_effects(&size);
    builder.package
}

/// Two columns of domains that climb side by side from the root; classes of one are suspicious of those of the other.
fn add_ladder(builder: &mut Builder, domains: usize, pairs: usize) {
    builder.package.domains = domains;
    let mut step = 2;
    while builder.package.pairs.len() < pairs {
        for below in 1..domains {
            if below + step < domains && builder.package.pairs.len() < pairs {
                builder.package.pairs.push((below as u8, (below + step) as u8));
            }
        }
        // Longer steps say what shorter ones imply; behind the longest all begins again.
        step = if step + 3 > domains { 2 } else { step + 2 };
    }
}

/// Classes in turn at the root and in either column, each under the last four of its own column.
fn add_columns(builder: &mut Builder, domains: usize, classes: usize) {
    let mut columns: [Vec<u8>; 3] = [vec![], vec![], vec![]];
    for number in 0..classes {
        let column = number % 3;
        let level = number * (domains.div_ceil(2) - 1) / classes;
        let domain = if column == 0 { 0 } else { (2 * level + column).min(domains - 1 - (domains - 1 + column) % 2) };
        let mut supers = [TOP_CLASS; MAX_SUPERS];
        for (place, &above) in supers.iter_mut().zip(columns[column].iter().rev()) {
            *place = above;
        }
        let super_count = if number == 0 { 0 } else { MAX_SUPERS as u8 };
        builder.package.classes.push(Class { domain: domain as u8, supers, super_count });
        columns[column].push(number as u8);
    }
    builder.trust = Trust::of(&builder.package, Settled);
}

fn add_hub(builder: &mut Builder) {
    let label = builder.package.classes[HUB_CLASS as usize].domain;
    let like = Method {
        class: HUB_CLASS,
        label,
        is_static: true,
        slot: 0,
        result: TOP_CLASS,
        params: [TOP_CLASS; MAX_PARAMS],
        param_count: MAX_PARAMS as u8,
    };
    builder.package.methods.push(like);
    builder.package.methods.push(Method { is_static: false, slot: 1, ..like });
    builder.package.methods.push(Method { is_static: false, slot: 1, class: UNDER_HUB, ..like });
    builder.package.fields.push(Field { class: HUB_CLASS, of: TOP_CLASS, is_static: true });
    builder.package.fields.push(Field { class: HUB_CLASS, of: TOP_CLASS, is_static: false });
    builder.package.fields.push(Field { class: HUB_CLASS, of: HUB_CLASS, is_static: false });
}

/// Everything that the hub's methods may do.
fn add_hub_effects(builder: &mut Builder) {
    for method in [HUB, CALLED, OVERRIDER] {
        for (op, target) in [
            (NEW, HUB_CLASS),
            (NEW, UNDER_HUB),
            (NEW, TOP_CLASS),
            (CHECKCAST, HUB_CLASS),
            (CHECKCAST, UNDER_HUB),
            (GETSTATIC, STATIC_FIELD),
            (PUTSTATIC, STATIC_FIELD),
            (GETFIELD, INSTANCE_FIELD),
            (PUTFIELD, INSTANCE_FIELD),
            (GETFIELD, OWN_FIELD),
            (PUTFIELD, OWN_FIELD),
            (INVOKESTATIC, HUB),
            (INVOKEMETHOD, CALLED),
        ] {
            builder.package.effects.push(Effect { method, op, target });
        }
    }
}

/// Methods in slots that whole columns override, and every fourth one static.
fn add_rows(builder: &mut Builder, count: usize) {
    let classes = builder.package.classes.len();
    for number in 0..count {
        let class = (number * 7 % classes) as u8;
        let own = builder.package.classes[class as usize].domain;
        let mut params = [TOP_CLASS; MAX_PARAMS];
        // Classes with a number that three divides lie at the root: every class may take them.
        for (place, param) in params.iter_mut().enumerate() {
            *param = ((number / 16 + place) * 3 % classes) as u8;
        }
        if number % 4 == 3 {
            params[5] = across(class, classes);
            builder.package.methods.push(Method {
                class,
                label: own,
                is_static: true,
                slot: 0,
                result: TOP_CLASS,
                params,
                param_count: 6,
            });
            continue;
        }
        let slot = 2 + (number / 16) as u16;
        let method = Method { class, label: own & 1, is_static: false, slot, result: TOP_CLASS, params, param_count: 6 };
        let fits = builder.may_join(&method);
        builder.package.methods.push(if fits { method } else { Method { slot: 0x0100 + number as u16, ..method } });
    }
}

/// A class of the other column: to take it is a grant. The root's classes have none.
fn across(class: u8, classes: usize) -> u8 {
    match class % 3 {
        0 => class,
        1 => (class + 1) % classes as u8,
        _ => class - 1,
    }
}

/// The largest package with a last effect that breaks 30.
fn breaks_30_last() -> Package {
    let random = &mut Random::new(0, 0);
    let mut builder = Builder::over(random, sized(MAX_CLASSES));
    let only_30 = |builder: &Builder, effect: &Effect| {
        (26..=30).all(|rule| builder.plain().effect_breaks(rule, effect).is_some() == (rule == 30))
    };
    let calls = (0..=255u8).flat_map(|method| (0..=255u8).map(move |target| (method, target)));
    let ops = |builder: &Builder, target: u8| {
        if builder.package.methods[target as usize].is_static {
            INVOKESTATIC
        } else {
            INVOKEMETHOD
        }
    };
    let bad = calls
        .map(|(method, target)| Effect { method, op: ops(&builder, target), target })
        .filter(|effect| only_30(&builder, effect))
        .last()
        .expect("some call grants what it may not");
    let mut effects = crate::list::List::new(bad);
    builder.package.effects[..MAX_EFFECTS - 1].iter().for_each(|&effect| effects.push(effect));
    effects.push(bad);
    builder.package.effects = effects;
    builder.package
}

fn refused_last_line() -> Vec<u8> {
    let mut text = package_text(&sized(MAX_CLASSES));
    text.pop();
    text
}

fn over_largest(start: &Start, steps: &[Step]) -> Vec<u8> {
    let mut frames = package_frames(&sized(MAX_CLASSES));
    frames.extend(start.frames(steps));
    text_of(&frames)
}

/// 1,024 steps of all kinds over the largest package.
fn walk() -> Vec<u8> {
    let package = sized(MAX_CLASSES);
    let trust = Trust::of(&package, Settled);
    for case in 0.. {
        let random = &mut Random::new(1024, case);
        let objects = (0..20).map(|r| (r, if r % 2 == 0 { HUB_CLASS } else { UNDER_HUB })).collect();
        let labels = (0..8).map(|r| Label { reference: r, class: if r % 2 == 0 { TOP_CLASS } else { HUB_CLASS } }).collect();
        let start = Start { entry: HUB, objects, links: vec![], labels };
        let mut walker = Walker::from(random, &package, &trust, Manner::Mixed, start, Settled);
        walker.walk(MAX_STEPS);
        if walker.steps.len() == MAX_STEPS {
            return over_largest(&walker.start, &walker.steps);
        }
    }
    unreachable!("some walk is long enough")
}

fn six(r: u8) -> Arguments {
    Arguments { of: [r; 6], count: 6 }
}

/// Calls down to the sixteenth saved frame, then returns and calls in turn.
fn ping_pong() -> Vec<u8> {
    let start = Start {
        entry: HUB,
        objects: vec![(0, UNDER_HUB)],
        links: vec![],
        labels: vec![Label { reference: 0, class: TOP_CLASS }, Label { reference: 0, class: HUB_CLASS }],
    };
    let call = Step::InvokeMethod { n: CALLED, v: OVERRIDER, r0: 0, args: six(0) };
    let mut steps = vec![call; 16];
    while steps.len() + 2 <= MAX_STEPS {
        steps.push(Step::Return { r: 0 });
        steps.push(call);
    }
    over_largest(&start, &steps)
}

/// Writes all 256 links of 16 objects, and then reads and writes them in turn.
fn links() -> Vec<u8> {
    let objects = (0..16).map(|r| (r, HUB_CLASS)).collect();
    let labels = (0..16).map(|reference| Label { reference, class: HUB_CLASS }).collect();
    let start = Start { entry: HUB, objects, links: vec![], labels };
    let pairs = (0..16u8).flat_map(|p| (0..16u8).map(move |q| (p, q)));
    let mut steps: Vec<Step> = pairs.clone().map(|(p, q)| Step::PutField { field: OWN_FIELD, p, q }).collect();
    for (p, q) in pairs.cycle().take((MAX_STEPS - 256) / 2) {
        steps.push(Step::GetField { field: OWN_FIELD, p, q });
        steps.push(Step::PutField { field: OWN_FIELD, p: 15 - p, q: 15 - q });
    }
    over_largest(&start, &steps)
}

/// A state with 800 lines of holdings: 17 full frames and 256 links, no two alike.
fn full() -> Vec<u8> {
    let mut frames: Vec<Vec<u8>> = vec![vec![0x01, 0x02, 0x01]];
    for class in 0..4u8 {
        frames.push([0x03, 0, (class > 0) as u8].into_iter().chain((class > 0).then(|| class - 1)).collect());
    }
    frames.extend((0..4u8).map(|of| vec![0x04, 0, of, 1]));
    frames.push(vec![0x05, 0, 0, 1, 0, 0, 0xFF, 0]);
    frames.push(vec![0x06, 0, NEW, 3]);
    frames.push(vec![0x06, 0, INVOKESTATIC, 0]);
    frames.push(vec![0x07]);
    frames.push(vec![0x10, 0]);
    frames.extend((0..72u8).map(|r| vec![0x11, r, 3]));
    let links = (8..72u8).flat_map(|target| (0..4u8).map(move |of| Link { owner: NO_OWNER, class: 0, of, target }));
    frames.extend(links.map(|link| link_frame(&link)));
    frames.extend((0..8u8).flat_map(|reference| (0..4u8).map(move |class| label_frame(&Label { reference, class }))));
    for depth in 0..16u8 {
        frames.push(step_frame(&Step::InvokeStatic { n: 0, args: Arguments { of: [0; 6], count: 0 } }));
        for r in 72 + depth * 8..80 + depth * 8 {
            frames.push(step_frame(&Step::New { r, of: 3 }));
            frames.extend((0..3u8).map(|to| step_frame(&Step::Widen { r, to })));
        }
    }
    frames.push(vec![0x2F]);
    text_of(&frames)
}

/// A full frame takes a label that it has, and then refuses a new object.
fn full_frame() -> Vec<u8> {
    let objects = (0..32).map(|r| (r, HUB_CLASS)).collect();
    let labels = (0..32).map(|reference| Label { reference, class: HUB_CLASS }).collect();
    over_largest(
        &Start { entry: HUB, objects, links: vec![], labels },
        &[Step::Widen { r: 5, to: HUB_CLASS }, Step::New { r: 0x80, of: HUB_CLASS }],
    )
}

/// The seventeenth nested call has no room.
fn full_saved() -> Vec<u8> {
    let start = Start {
        entry: HUB,
        objects: vec![(0, HUB_CLASS)],
        links: vec![],
        labels: vec![Label { reference: 0, class: TOP_CLASS }],
    };
    over_largest(&start, &vec![Step::InvokeStatic { n: HUB, args: six(0) }; 17])
}
