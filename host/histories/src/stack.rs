//! The stack that each exported call uses.
//!
//! Each scene is made in a process of its own, whose stack is limited. The process goes down until so many bytes are
//! left and makes the call there. If the call needs more, the system ends the process. The least number of bytes with
//! which it goes through is found by halving.

use std::hint::black_box;
use std::process::Command;

use event_disk::Refusal;
use model::Version;

use crate::scenes::{prepare, refusal, Ready, KNOWN, SCENES, TRIALS};

/// No call may need this much.
const LIMIT: usize = 256 * 1024;
/// The stack of the process, in units of 1,024 bytes: more than twice the limit.
const STACK_KIB: usize = 1024;
/// The least bytes are found up to this.
const GRAIN: usize = 64;

/// Measures all scenes in each version. False if one needs too much or cannot be measured.
pub fn run() -> bool {
    println!("stack of each exported call, in bytes; the limit is {LIMIT}");
    let trials = TRIALS.map(|scene| (scene, Version::SMALL));
    let calls = Version::ALL.into_iter().flat_map(|version| SCENES.map(|scene| (scene, version)));
    let mut most = 0;
    for (scene, version) in trials.into_iter().chain(calls) {
        match measure(scene, version) {
            Ok(bytes) => most = most.max(if TRIALS.contains(&scene) { 0 } else { bytes }),
            Err(reason) => {
                println!("  {scene}, version {}: {reason}", version.number);
                return false;
            }
        }
    }
    println!("  the most is {most}");
    most > 0 && most < LIMIT
}

/// Measures one scene, and prints what it needs.
fn measure(scene: &str, version: Version) -> Result<usize, String> {
    let bytes = least(scene, version)?;
    let place = if TRIALS.contains(&scene) { "the measurement".into() } else { format!("version {}", version.number) };
    println!("  {place:16} {scene:20} {bytes:7}");
    match plausible(scene, bytes) {
        true => Ok(bytes),
        false => Err("the measurement is not right, or this is too much".into()),
    }
}

/// What is known beforehand: nothing needs next to nothing, and the known scene as much as it takes.
fn plausible(scene: &str, bytes: usize) -> bool {
    match scene {
        "none" => bytes < 1024,
        "known" => (KNOWN..KNOWN + 4096).contains(&bytes),
        _ => bytes < LIMIT,
    }
}

/// The least number of bytes with which a scene goes through.
fn least(scene: &str, version: Version) -> Result<usize, String> {
    let (mut fails, mut passes) = (0, 2 * LIMIT / GRAIN);
    if !goes_through(scene, version, passes * GRAIN)? {
        return Err(format!("needs more than {} bytes", passes * GRAIN));
    }
    while fails + 1 < passes {
        let middle = (fails + passes) / 2;
        if goes_through(scene, version, middle * GRAIN)? {
            passes = middle;
        } else {
            fails = middle;
        }
    }
    Ok(passes * GRAIN)
}

/// Whether a scene goes through with so many bytes left. The shell sets the limit, and no core is to be written.
fn goes_through(scene: &str, version: Version, left: usize) -> Result<bool, String> {
    let program = std::env::current_exe().map_err(|error| error.to_string())?;
    let limit = format!("ulimit -c 0; ulimit -s {STACK_KIB} && exec \"$0\" \"$@\"");
    let output = Command::new("sh")
        .args(["-c", &limit])
        .arg(program)
        .args(["stack-scene", scene, &version.number.to_string(), &left.to_string()])
        .output()
        .map_err(|error| error.to_string())?;
    match output.status.code() {
        Some(0) => Ok(true),
        Some(_) => Err(String::from_utf8_lossy(&output.stdout).into_owned()),
        None => Ok(false),
    }
}

/// Makes the call of a scene with so many bytes of stack left. False if it cannot be tried.
pub fn run_scene(name: &str, version: u16, left: usize) -> bool {
    let Some(version) = Version::ALL.into_iter().find(|row| row.number == version) else {
        return fail("is no version");
    };
    let scene = match prepare(name, version) {
        Some(Ok(scene)) => scene,
        Some(Err(refusal)) => return fail(&format!("cannot be prepared: {refusal}")),
        None => return fail("is no scene"),
    };
    match lowest_address() {
        Some(lowest) => {
            let mut scene = scene;
            let answer = go_down(lowest + left, &mut scene);
            answer.err() == refusal(name) || fail(&format!("the call gave {answer:?}"))
        }
        None => fail("the limits of the stack cannot be found in /proc/self"),
    }
}

fn fail(reason: &str) -> bool {
    println!("{reason}");
    false
}

/// The lowest address that the stack of this process may grow to.
fn lowest_address() -> Option<usize> {
    let maps = std::fs::read_to_string("/proc/self/maps").ok()?;
    let range = maps.lines().find(|line| line.ends_with("[stack]"))?.split(' ').next()?;
    let end = usize::from_str_radix(range.split('-').nth(1)?, 16).ok()?;
    let limits = std::fs::read_to_string("/proc/self/limits").ok()?;
    let soft = limits.lines().find_map(|line| line.strip_prefix("Max stack size"))?.split_whitespace().next()?;
    end.checked_sub(soft.parse().ok()?)
}

/// Calls itself until the stack has come down to an address, and makes the call there.
#[inline(never)]
fn go_down(to: usize, call: &mut Ready) -> Result<u64, Refusal> {
    let mark = black_box(0u8);
    let answer = if std::ptr::from_ref(&mark).addr() > to { go_down(to, call) } else { call() };
    black_box(&mark);
    answer
}
