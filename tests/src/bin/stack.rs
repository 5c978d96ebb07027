//! Measures the stack that the exported calls and the program `retro` use.
//!
//!     cargo run --offline --release --bin stack
//!
//! Each call runs on the largest file of either edition in a thread whose stack was filled with a
//! pattern; what it used reaches from the place of the call down to the lowest byte that has
//! changed. Charge takes no file and is run twice. For the program crates/retro/out/retro it is the least
//! limit, in steps of 4 KiB, under which it rates the file.

use retro_tests::calls::{self, Numbers};
use retro_tests::guard::{Guarded, Place};
use retro_tests::samples::{largest, largest_of_edition_2, stock, Sample, Values};
use retro_tests::{program, second_rater};
use std::ffi::{c_int, c_void};
use std::fs::{self, File};
use std::process::{self, Command};
use std::{env, ptr};

/// The size of the thread's stack.
const STACK: usize = 1 << 20;
/// What each byte of an unused stack holds.
const PATTERN: u8 = 0xa5;

/// Space for a pthread_attr_t, which has 56 bytes on x86-64 Linux.
#[repr(C, align(16))]
struct Attributes([u8; 128]);

extern "C" {
    fn pthread_attr_init(attributes: *mut Attributes) -> c_int;
    fn pthread_attr_setstack(attributes: *mut Attributes, stack: *mut c_void, size: usize)
        -> c_int;
    fn pthread_attr_destroy(attributes: *mut Attributes) -> c_int;
    fn pthread_create(
        thread: *mut usize,
        attributes: *const Attributes,
        start: extern "C" fn(*mut c_void) -> *mut c_void,
        argument: *mut c_void,
    ) -> c_int;
    fn pthread_join(thread: usize, result: *mut *mut c_void) -> c_int;
}

/// What a thread is to call, with every buffer outside its stack.
struct Task {
    call: fn(&mut Task),
    file: Vec<u8>,
    values: Values,
    schedule: calls::Schedule,
    premiums: Vec<u8>,
    differences: Vec<i64>,
    numbers: Numbers,
    written: Vec<u8>,
    answer: u32,
    /// The address of a local variable beside the call.
    place: usize,
}

fn no_call(task: &mut Task) {
    task.answer = 0;
}

fn rate(task: &mut Task) {
    let (mut risks, mut basic, mut excess, mut billed) = (0, 0, 0, 0);
    task.answer = calls::rate(
        &task.file,
        &mut task.premiums,
        &mut risks,
        &mut basic,
        &mut excess,
        &mut billed,
    );
}

fn guaranteed(task: &mut Task) {
    task.answer = calls::guaranteed(
        &task.file,
        task.schedule,
        &mut task.premiums,
        &mut task.differences,
        &mut task.numbers.lend(),
    );
}

fn table(task: &mut Task) {
    task.answer = calls::table(&task.file, 120, &mut 0, &mut 0);
}

fn read(task: &mut Task) {
    let Values {
        counts,
        claims,
        joined,
        ..
    } = &mut task.values;
    task.answer = calls::read(&task.file, counts, claims, joined).refused;
}

fn write(task: &mut Task) {
    let values = &task.values;
    task.answer = calls::write(
        values.edition,
        values.header.into(),
        &values.counts,
        &values.claims,
        &values.joined,
        &mut task.written,
        &mut 0,
    );
}

fn plan(task: &mut Task) {
    task.answer = calls::plan(&task.file, u32::MAX, 0, 20, &mut 0, &mut 0, &mut 0);
}

fn charge(task: &mut Task) {
    task.answer = calls::charge(44, 120, &mut 0.0, &mut 0);
}

extern "C" fn start(task: *mut c_void) -> *mut c_void {
    // SAFETY: the task outlives the thread, and no one else uses it before the thread has ended.
    let task = unsafe { &mut *task.cast::<Task>() };
    let here = 0u8;
    task.place = ptr::from_ref(&here) as usize;
    (task.call)(task);
    ptr::null_mut()
}

/// The bytes of stack below the place of the call.
fn used(task: &mut Task, call: fn(&mut Task)) -> usize {
    task.call = call;
    task.answer = u32::MAX;
    let mut memory = Guarded::<u8>::new(STACK);
    let stack = memory.slice(STACK, Place::PageBefore);
    stack.fill(PATTERN);
    let lowest = stack.as_mut_ptr();
    let mut attributes = Attributes([0; 128]);
    let mut thread = 0;
    // SAFETY: the attributes, the stack and the task outlive the thread, which is joined here.
    unsafe {
        assert_eq!(pthread_attr_init(&mut attributes), 0);
        assert_eq!(
            pthread_attr_setstack(&mut attributes, lowest.cast(), STACK),
            0
        );
        let argument = ptr::from_mut(task).cast();
        assert_eq!(pthread_create(&mut thread, &attributes, start, argument), 0);
        assert_eq!(pthread_join(thread, ptr::null_mut()), 0);
        assert_eq!(pthread_attr_destroy(&mut attributes), 0);
    }
    assert_eq!(task.answer, 0, "the call was refused");
    let stack = memory.slice(STACK, Place::PageBefore);
    let untouched = stack.iter().take_while(|&&byte| byte == PATTERN).count();
    task.place - (lowest as usize + untouched)
}

/// How often the program is run under a limit, since the place of its stack differs from run to
/// run.
const RUNS: usize = 50;

/// The least stack limit in KiB under which `retro` always prints what it must for a file.
fn least_limit(bytes: &[u8]) -> u32 {
    let program = program();
    let file = env::temp_dir().join(format!("retro-stack-{}.group", process::id()));
    fs::write(&file, bytes).expect("a file for the program");
    let rated = second_rater::rate(bytes, 4 * second_rater::MOST_RISKS).expect("a rated file");
    let expected = second_rater::print_rated(&rated).into_bytes();
    let rates_under = |limit: u32| {
        let output = Command::new("/bin/sh")
            .args(["-c", "ulimit -s \"$0\" && exec \"$1\"", &limit.to_string()])
            .arg(&program)
            .env_clear()
            .stdin(File::open(&file).expect("the file"))
            .output()
            .expect("a shell");
        output.stdout == expected
    };
    let least = (4..=8_192)
        .step_by(4)
        .find(|&limit| (0..RUNS).all(|_| rates_under(limit)));
    fs::remove_file(&file).expect("the file can be removed");
    least.expect("crates/retro/out/retro rates the file under 8 MiB")
}

/// What the calls are given for a group.
fn task(sample: &Sample) -> Task {
    Task {
        call: no_call,
        file: sample.file(),
        values: sample.values(),
        schedule: stock().into(),
        premiums: vec![0; 4 * second_rater::MOST_RISKS],
        differences: vec![0; second_rater::MOST_RISKS],
        numbers: Numbers::default(),
        written: vec![0; second_rater::LARGEST_FILE],
        answer: 0,
        place: 0,
    }
}

fn main() {
    let mut tasks = [largest(), largest_of_edition_2()].map(|sample| task(&sample));
    println!("| largest file | edition 1 | edition 2 |");
    println!("|---|---:|---:|");
    for (name, call) in [
        ("no call", no_call as fn(&mut Task)),
        ("Rate", rate),
        ("Table", table),
        ("Read", read),
        ("Write", write),
        ("Guaranteed", guaranteed),
        ("Plan", plan),
        ("Charge, which takes no file", charge),
    ] {
        let [of_1, of_2] = tasks.each_mut().map(|task| used(task, call));
        println!("| {name} | {of_1} bytes | {of_2} bytes |");
    }
    let [of_1, of_2] = tasks.each_ref().map(|task| least_limit(&task.file));
    println!("| `retro`, least `ulimit -s` | {of_1} KiB | {of_2} KiB |");
}
