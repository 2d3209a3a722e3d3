//! The stack that a call uses: it is run on a stack of its own, filled with a pattern beforehand, and the lowest byte changed tells.
//!
//! What the wrapper's own frame takes is counted in; bytes that are set aside and never written are not.

use crate::choice::Case;
use crate::files::{in_form, Made};
use crate::lists::{own, Listed};
use crate::plan;
use crate::probe;
use crate::some_steps::with_some_lists;
use crate::sort::Sort;
use second::form::Form;
use second::generate::Class;
use second::random::Random;
use second::reading::read;
use std::arch::asm;
use std::cell::RefCell;
use tazbilk::{ANSWER_MOST, WORK_MOST};

/// The bytes of the stack that a call is run on.
const STACK: usize = 1 << 20;

/// Calls a closure behind a pointer.
extern "C" fn enter(call: *mut &mut dyn FnMut()) {
    // SAFETY: the pointer is that of `depth`'s own closure, which it holds until the call returns.
    unsafe { (*call)() }
}

/// The bytes of stack that a call uses, by one pattern.
fn depth_by(pattern: u8, call: &mut dyn FnMut()) -> usize {
    let mut stack = vec![pattern; STACK];
    let mut call: &mut dyn FnMut() = call;
    // SAFETY: the stack pointer is set to the end of bytes held here, 16-byte aligned, is kept in a register that a C function
    // leaves as it is, and is set back before they go; the unit calls back nothing and unwinds nothing.
    unsafe {
        let end = stack.as_mut_ptr().add(STACK);
        let top = end.sub(end as usize % 16);
        asm!(
            "mov r12, rsp",
            "mov rsp, {top}",
            "call {enter}",
            "mov rsp, r12",
            top = in(reg) top,
            enter = sym enter,
            in("rdi") &mut call as *mut &mut dyn FnMut(),
            out("r12") _,
            clobber_abi("C"),
        );
    }
    let untouched = stack.iter().take_while(|&&byte| byte == pattern).count();
    STACK - untouched
}

/// The bytes of stack that a call uses; a written byte can look like one pattern, and not like both.
pub fn depth(call: &mut dyn FnMut()) -> usize {
    depth_by(0xa5, call).max(depth_by(0x5a, call))
}

/// The greatest stack of the calls on these files.
fn greatest(files: &[Vec<u8>], call: impl Fn(&[u8])) -> usize {
    files
        .iter()
        .map(|file| depth(&mut || call(file)))
        .max()
        .unwrap_or(0)
}

/// The files of a sort whose calls are measured: lawful ones of all classes, the worst ones, and refused ones.
fn files(sort: Sort) -> Vec<Vec<u8>> {
    let mut files = vec![Vec::new()];
    let classes = Class::ALL.into_iter();
    for class in classes
        .filter(|class| (class.form(), class.has_step_lists()) == (sort.form, sort.own_steps))
    {
        files.extend((1..=5).map(|seed| Made::Lawful(class).file(seed)));
    }
    let mut random = Random::new(1);
    let worst = (0..5).map(|seed| Made::Worst(512).file(seed));
    let types = (0..3).map(|seed| Made::Types(512).file(seed));
    files.extend(worst.chain(types).map(|file| {
        let file = in_form(sort.form, &file);
        match sort.own_steps {
            true => with_some_lists(&mut random, &file),
            false => file,
        }
    }));
    let refused = plan::faulty(sort, 5, 0, 0).into_iter();
    files.extend(
        refused.flat_map(|(made, count)| (0..count as u64).map(move |seed| made.file(seed))),
    );
    files
}

/// The greatest stack of the reviews for these files of the unit's own lists and of one list of each other class.
fn greatest_review(sort: Sort, files: &[Vec<u8>]) -> usize {
    let mut random = Random::new(1);
    let mut work = [0; WORK_MOST];
    let mut most = 0;
    for file in files {
        let lists: Vec<Vec<u8>> = match read(file) {
            Ok(round) => Listed::all(sort)
                .into_iter()
                .map(|listed| listed.list(&mut random, &round, file))
                .collect(),
            Err(_) => vec![own(file)],
        };
        for list in lists {
            most = most.max(depth(&mut || {
                tazbilk::review(file, &list, &mut work);
            }));
        }
    }
    most
}

/// The greatest stack of the choices of 400 made cases.
fn greatest_choice() -> usize {
    let mut random = Random::new(1);
    let mut most = 0;
    for number in 0..400 {
        let places = if number < 40 { 512 } else { 60 };
        let case = match number % 2 {
            0 => Case::made(&mut random, places),
            _ => Case::of_steps(&mut random, places),
        };
        let mut steps = vec![0; case.offers.len()];
        let mut types = steps.clone();
        most = most.max(depth(&mut || {
            probe::choose(
                &case.body,
                case.types,
                case.policy,
                &case.marks,
                &case.offers,
                &mut steps,
                &mut types,
            );
        }));
    }
    most
}

/// The greatest stack of each call over the files of a sort, as text.
fn of_sort(sort: Sort) -> String {
    let files = files(sort);
    let (answer, work) = (RefCell::new([0; ANSWER_MOST]), RefCell::new([0; WORK_MOST]));
    let allot = greatest(&files, |file| {
        tazbilk::allot(file, &mut *answer.borrow_mut(), &mut *work.borrow_mut());
    });
    let verdict = greatest(&files, |file| {
        let _ = probe::verdict(file);
    });
    let review = greatest_review(sort, &files);
    let form = match sort.form {
        Form::Narrow => "narrow",
        Form::Wide => "wide",
    };
    let steps = match sort.own_steps {
        true => " with lists of steps",
        false => "",
    };
    format!(
        "over {} {form} files{steps}: allot {allot}, review {review}, verdict {verdict}",
        files.len()
    )
}

/// What was measured, as lines of text.
pub fn text() -> String {
    let of_sorts = Sort::ALL.map(|sort| format!("- {};\n", of_sort(sort)));
    let (choose, nothing) = (greatest_choice(), depth(&mut || {}));
    format!(
        "Each call is run on a stack of its own that a pattern fills beforehand; the lowest byte changed tells how deep it went. The\n\
         greatest, in bytes, over files of all classes of a sort, the worst and the refused ones among them, and in reviews over the\n\
         unit's own lists and others:\n\n\
         {}\
         - over 400 single choices: choose {choose}.\n\n\
         A call of nothing takes {nothing}, which is counted in, and so is the wrapper.\n",
        of_sorts.concat()
    )
}
