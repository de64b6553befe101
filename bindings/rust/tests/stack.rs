//! Each call runs in a thread that has no more stack than the crate says it takes, on the inputs that are hard. The figures of
//! docs/BUFFERS.md are printed by `cargo test --release --test stack -- --ignored --nocapture measured`.
use ciravehy::*;
use std::process::Command;
use std::thread::Builder;

const INPUTS: [&str; 10] = [
    "adversarial/cross",
    "adversarial/late-failure",
    "adversarial/most-triples",
    "adversarial/nested-stars",
    "adversarial/nested-tests",
    "adversarial-14/closure-85-stars",
    "adversarial-14/closure-many-starts",
    "adversarial-14/closure-most-triples",
    "adversarial-14/closure-nested-tests",
    "adversarial-14/spread-slow-12",
];

/// A call on a pack and a query; it fails where the answer is not one that these inputs have.
type Call = fn(&mut Service, &[u8], &[u8]);

/// The calls, with the stack that each is said to take.
const CALLS: [(&str, usize, Call); 4] = [
    ("build", BUILD_STACK, |service, pack, _| assert!(service.build(pack).is_ok())),
    ("yes/no", YES_NO_STACK, |service, pack, query| assert!(service.yes_no(pack, query).is_ok())),
    ("pairs", PAIRS_STACK, |service, pack, query| {
        let _ = service.pairs(pack, query); // some have too many
    }),
    ("read-back", READ_BACK_STACK, |_, pack, _| {
        assert_eq!(lent::read_back(pack, b"no such text").unwrap_err().number, 13);
    }),
];

fn file(name: &str, end: &str) -> Vec<u8> {
    let path = format!("{}/../../tests/vectors/{name}.{end}", env!("CARGO_MANIFEST_DIR"));
    std::fs::read(&path).unwrap_or_else(|error| panic!("{path}: {error}"))
}

/// Runs `call` on each input, in a thread of this many bytes of stack.
fn within(stack: usize, call: Call) {
    for name in INPUTS {
        let (pack, query) = (file(name, "pack"), file(name, "query"));
        let query = query.strip_suffix(b"\n").map(<[u8]>::to_vec).unwrap_or(query);
        let mut service = Service::new();
        Builder::new().stack_size(stack).spawn(move || call(&mut service, &pack, &query)).unwrap().join().unwrap();
    }
}

#[test]
fn each_call_runs_within_its_stack() {
    for (_, stack, call) in CALLS {
        within(stack, call);
    }
}

#[test]
fn no_call_takes_over_256_kb() {
    assert!(CALLS.iter().all(|(_, stack, _)| *stack <= 256 << 10));
}

/// Says which call `tried` makes, and with how many KB.
const TRY: &str = "CIRAVEHY_TEST_STACK";

/// Prints the least stack that is enough for each call, in steps of 8 KB. Too little ends a process, so each try has its own.
#[test]
#[ignore = "prints figures, and takes a while"]
fn measured() {
    for (name, _, _) in CALLS {
        let enough = |kb: &usize| {
            let test = std::env::current_exe().unwrap();
            let mut run = Command::new(test);
            run.args(["--exact", "tried", "--ignored"]).env(TRY, format!("{name} {kb}"));
            run.output().unwrap().status.success()
        };
        println!("{name}: {:?} KB", (16..=512).step_by(8).find(enough));
    }
}

#[test]
#[ignore = "a part of `measured`"]
fn tried() {
    let Ok(said) = std::env::var(TRY) else { return };
    let (name, kb) = said.split_once(' ').expect("a call and a number");
    let (_, _, call) = CALLS.into_iter().find(|call| call.0 == name).expect("a call");
    within(kb.parse::<usize>().expect("a number") << 10, call);
}
