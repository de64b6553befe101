//! Fuzzing: random and damaged inputs, buffers of random lengths, each next
//! to a page that stops whoever touches it, or exactly as long as its
//! allocation. Every call is made twice, with large and with small numbers
//! in the buffers, and compared with the second program.
//!
//! Arguments: for how many seconds, and the first seed; or `one` and a
//! seed. A seed fixes all that is done for it.

use compare::buffers::{enough, shorter, Buffers, Lengths, Place, COUNT};
use compare::calls::{Call, Proved};
use compare::command::{arguments, ended, Arguments};
use compare::driver::{Case, Driver};
use compare::inputs::{inputs, Inputs, Room};
use compare::lent::Numbers;
use second::generate::Random;
use second::vectors::answers;
use std::ffi::{c_int, c_void};
use std::process::ExitCode;
use std::sync::atomic::{AtomicU64, Ordering};
use std::time::Instant;

const USAGE: &str = "usage: fuzz SECONDS [FIRST-SEED], or: fuzz one SEED";

fn main() -> ExitCode {
    report_stops();
    ended(match arguments() {
        Some(Arguments::One(seed)) => fuzz(0, seed),
        Some(Arguments::Numbers(numbers)) => match numbers[..] {
            [seconds] => fuzz(seconds, 0),
            [seconds, first] => fuzz(seconds, first),
            _ => Err(USAGE.to_string()),
        },
        None => Err(USAGE.to_string()),
    })
}

/// At least one seed, and then as many as the time allows.
fn fuzz(seconds: u64, first: u64) -> Result<(), String> {
    let started = Instant::now();
    let mut driver = Driver::new(Proved);
    let mut seed = first;
    let mut minutes = 0;
    loop {
        SEED.store(seed, Ordering::Relaxed);
        fuzz_seed(&mut driver, seed)
            .map_err(|what| format!("difference: {what}\nto see it again: fuzz one {seed}"))?;
        seed += 1;
        let elapsed = started.elapsed().as_secs();
        if elapsed >= 60 * (minutes + 1) {
            minutes += 1;
            println!("{minutes} minutes, {} seeds", seed - first);
        }
        if elapsed >= seconds {
            break;
        }
    }
    let (last, calls) = (seed - 1, driver.tally.total());
    println!("seeds {first} to {last}, {calls} calls, no difference");
    println!("{}", driver.tally);
    println!("{} seconds", started.elapsed().as_secs());
    Ok(())
}

/// Every call twice. What the calls are asked must be as before.
fn fuzz_seed(driver: &mut Driver<Proved>, seed: u64) -> Result<(), String> {
    let inputs = inputs(seed);
    let Inputs { pack, query, text } = &inputs;
    let answers = &answers(pack, query, text);
    let random = &mut Random::new(!seed);
    let lengths = lengths(random);
    let (place, buffers, mut room) = match random.below(3) {
        0 => (Place::First, Buffers::fenced(), Room::fenced()),
        1 => (Place::Last, Buffers::fenced(), Room::fenced()),
        _ => (Place::First, Buffers::alone(&lengths), Room::alone(&inputs)),
    };
    driver.place = place;
    driver.buffers = buffers;
    driver.random = random.clone();
    let input = room.put(&inputs, place);
    for call in Call::ALL {
        for numbers in [Numbers::Large, Numbers::Small] {
            driver.filled(call, &lengths, numbers, Case { input, answers })?;
        }
        if (input.pack, input.query, input.text) != (pack, query, text) {
            return Err(format!("{call}: the inputs are changed"));
        }
    }
    Ok(())
}

/// Long enough in most cases; else some buffers are shorter.
fn lengths(random: &mut Random) -> Lengths {
    let mut lengths = enough(random);
    if random.percent(20) {
        for buffer in 0..COUNT {
            if random.percent(25) {
                lengths = shorter(random, lengths, buffer);
            }
        }
    }
    lengths
}

// ------------------------------------------------- where a stop happened

/// The seed at hand, for a report when the program is stopped.
static SEED: AtomicU64 = AtomicU64::new(0);

extern "C" {
    fn signal(number: c_int, handler: usize) -> usize;
    fn write(file: c_int, bytes: *const c_void, length: usize) -> isize;
}

/// Linux's numbers: illegal instruction, abort, bus error, bad address.
const SIGNALS: [c_int; 4] = [4, 6, 7, 11];

/// A fault or a panic prints the seed.
fn report_stops() {
    let handler: extern "C" fn(c_int) = stopped;
    for number in SIGNALS {
        // SAFETY: the handler makes no calls that a handler must not make.
        unsafe { signal(number, handler as usize) };
    }
    let hook = std::panic::take_hook();
    std::panic::set_hook(Box::new(move |panic| {
        println!("panic at seed {}", SEED.load(Ordering::Relaxed));
        hook(panic);
    }));
}

/// Writes the seed, and lets the signal stop the program the next time.
extern "C" fn stopped(number: c_int) {
    let mut text = *b"\nstopped at seed 00000000000000000000\n";
    let mut seed = SEED.load(Ordering::Relaxed);
    for place in (17..37).rev() {
        text[place] = b'0' + (seed % 10) as u8;
        seed /= 10;
    }
    // SAFETY: the text is as long as is said; 0 is the default handler.
    unsafe {
        write(2, text.as_ptr().cast(), text.len());
        signal(number, 0);
    }
}
