//! A scene played on both guards, and its instructions counted.

use crate::callgrind;
use crate::scenes::{Check, Counted, Scene, place};
use bench::stage::Stage;
use compare::guard::{Own, coded};
use reference::guard::{Answer, Segment, Thread};
use std::ffi::CString;
use std::hint::black_box;

/// The count of nothing at all.
pub const EMPTY: &str = "nothing";

/// The two guards, as counts are named.
pub const PROVED: &str = "proved";
pub const REFERENCE: &str = "reference";

/// The name of a guard's count.
pub fn count_name(guard: &str, scene: &str) -> String {
    format!("{guard}: {scene}")
}

/// The names of both guards' counts, as callgrind takes them: the proved guard's
/// and the reference's.
pub fn count_names(scene: &str) -> [CString; 2] {
    [PROVED, REFERENCE]
        .map(|guard| CString::new(count_name(guard, scene)).expect("a name without a 0"))
}

fn asserted(scene: &Scene, answers: [u32; 2]) {
    assert_eq!(answers, [u32::from(scene.expected); 2], "{}", scene.name);
}

/// The access of the proved guard that a check is inside of.
fn proved_access(stage: &Stage, check: &Check) -> u32 {
    let Check {
        thread,
        segment,
        operation,
    } = *check;
    stage.proved.access(thread, segment, operation)
}

/// The answers of both are the expected one, and the thread stands where it is
/// said to. Nothing is counted.
pub fn tried(scene: &Scene) {
    let mut stage = Stage::after(&scene.before);
    let answers = match &scene.counted {
        Counted::Check(check) => {
            let thread = stage.reference.thread(check.thread);
            let segment = stage.reference.known_segment(check.segment);
            let (thread, segment) = (thread.expect("a live thread"), segment.expect("a segment"));
            let reference = reference::guard::check(thread, segment, check.operation);
            [proved_access(&stage, check), coded(reference)]
        }
        Counted::Direct(_, record) | Counted::Entry(record) => {
            let before = stage.proved.cells().threads;
            let answers = stage.call(record);
            if let Some(Own::CallSegment { .. } | Own::ReturnCall { .. }) = Own::of_record(record) {
                let after = &stage.proved.cells().threads;
                let changed = (0..before.len()).filter(|place| before[*place] != after[*place]);
                assert!(changed.eq([place(record.a)]), "{}", scene.name);
            }
            answers
        }
    };
    asserted(scene, answers);
}

/// Has the instructions of nothing counted, which are those of counting itself.
pub fn count_nothing() {
    let name = CString::new(EMPTY).expect("a name without a 0");
    callgrind::count(&name, || ());
}

/// Has a scene's instructions counted, on each guard; of a check the
/// reference's, since the proved guard's are those of [`count_check`].
///
/// The reference's functions are called by pointers that the compiler can't see
/// through, so that they aren't made for the arguments at hand. It can't see
/// through the proved guard's either.
pub fn count(scene: &Scene) {
    let [proved_name, reference_name] = count_names(&scene.name);
    let mut stage = Stage::after(&scene.before);
    let answers = match &scene.counted {
        Counted::Check(asked) => {
            let check: fn(&Thread, &Segment, u16) -> Answer = black_box(reference::guard::check);
            let thread = black_box(stage.reference.thread(asked.thread).expect("a live thread"));
            let segment = stage.reference.known_segment(asked.segment);
            let segment = black_box(segment.expect("a segment"));
            let operation = black_box(asked.operation);
            let reference = callgrind::count(&reference_name, || check(thread, segment, operation));
            [u32::from(scene.expected), coded(reference)]
        }
        Counted::Direct(own, record) => {
            let [a, b, c] = black_box([record.a, record.b, record.c]);
            let Stage { proved, reference } = black_box(&mut stage);
            match own {
                Own::CallSegment { .. } => {
                    type Call = fn(&mut reference::guard::Guard, u16, u16) -> Answer;
                    let call: Call = black_box(reference::guard::Guard::call_segment);
                    let proved = callgrind::count(&proved_name, || proved.call_segment(a, b));
                    let reference = callgrind::count(&reference_name, || call(reference, a, b));
                    [proved, coded(reference)]
                }
                Own::ReturnCall { .. } => {
                    type Call = fn(&mut reference::guard::Guard, u16) -> Answer;
                    let call: Call = black_box(reference::guard::Guard::return_call);
                    let proved = callgrind::count(&proved_name, || proved.return_call(a));
                    let reference = callgrind::count(&reference_name, || call(reference, a));
                    [proved, coded(reference)]
                }
                Own::Access { .. } => {
                    type Call = fn(&reference::guard::Guard, u16, u16, u16) -> Answer;
                    let call: Call = black_box(reference::guard::Guard::access);
                    let proved = callgrind::count(&proved_name, || proved.access(a, b, c));
                    let reference = callgrind::count(&reference_name, || call(reference, a, b, c));
                    [proved, coded(reference)]
                }
            }
        }
        Counted::Entry(record) => {
            type Call = fn(&mut reference::guard::Guard, u8, u16, u16, u16, &[u8]) -> Answer;
            let call: Call = black_box(reference::guard::Guard::call);
            let [a, b, c] = black_box([record.a, record.b, record.c]);
            let (letter, text) = black_box((record.letter, &record.text[..]));
            let Stage { proved, reference } = black_box(&mut stage);
            let proved = callgrind::count(&proved_name, || proved.call(letter, a, b, c, text));
            let reference =
                callgrind::count(&reference_name, || call(reference, letter, a, b, c, text));
            [proved, coded(reference)]
        }
    };
    asserted(scene, answers);
}

/// Has the instructions of the proved guard's own check counted, inside the
/// access of a check's scene. Of other scenes nothing is counted.
pub fn count_check(scene: &Scene) {
    let Counted::Check(check) = scene.counted else {
        return;
    };
    let name = CString::new(scene.name.as_str()).expect("a name without a 0");
    let stage = Stage::after(&scene.before);
    let answer = callgrind::count_check(&name, || proved_access(&stage, &check));
    assert_eq!(answer, u32::from(scene.expected), "{}", scene.name);
}
