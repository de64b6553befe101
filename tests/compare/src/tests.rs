//! That the comparison passes what is right, and notices each fault.

use crate::buffers::*;
use crate::calls::{Answer, Call, Calls, Given, Input};
use crate::driver::{Case, Driver};
use crate::lent::{Left, Lent, Numbers};
use crate::limits::limits;
use crate::model::{Faulty, Model, Peeking};
use crate::tally::{outcomes, Tally};
use ciravehy::{Clash, Refusal};
use second::encode::encode;
use second::generate::{case, pairs_pack, sample, Random};
use second::graph::all_clashing;
use second::pack::Pack;
use second::records::row;
use second::vectors::answers;

/// A pack that build takes, and one that it refuses by 10.
fn taken() -> Vec<u8> {
    encode(&sample())
}

fn clashing() -> Vec<u8> {
    let mut pack = sample();
    pack.dependencies.clear();
    pack.rows.push(row(0, &[0, 2]));
    encode(&pack)
}

/// A pack that is refused by 10: sty:r1 has three names and two families,
/// sty:Roman has two names.
fn several() -> Pack {
    let mut pack = sample();
    pack.dependencies.clear();
    pack.rows = vec![row(0, &[1, 2]), row(0, &[1, 0])];
    pack.rows.extend([2, 1].map(|family| row(1, &[0, family])));
    pack.rows.extend([2, 1, 0].map(|name| row(0, &[0, name])));
    pack
}

/// A clash of that pack, by its place among them, with two of its objects.
fn clash(place: usize, objects: [usize; 2]) -> Clash {
    let clashing = all_clashing(&several()).remove(place);
    Clash {
        subject: clashing.subject,
        predicate: clashing.predicate,
        objects: objects.map(|object| clashing.objects[object]),
    }
}

fn compare(calls: impl Calls, pack: &[u8]) -> Result<(), String> {
    compare_seed(7, calls, pack)
}

/// The seed fixes what the buffers hold.
fn compare_seed(seed: u64, calls: impl Calls, pack: &[u8]) -> Result<(), String> {
    let input = Input::new(pack, b"name", b"sty:r1");
    let answers = &answers(input.pack, input.query, input.text);
    Driver::new(calls).case(seed, Case { input, answers })
}

/// What is said of a fault in the answers to a pack.
fn said(pack: &[u8], fault: impl FnMut(Call, &mut Answer, &mut Buffers)) -> String {
    compare(Faulty(fault), pack).expect_err("a difference")
}

#[test]
fn the_lengths_are_those_of_the_wrapper() {
    let lengths = [
        ciravehy::NODE_LIST_LENGTH,
        ciravehy::TRIPLE_LIST_LENGTH,
        ciravehy::INDEX_LENGTH,
        ciravehy::PAIR_LIST_LENGTH,
        ciravehy::ROWS_LENGTH,
        ciravehy::HEADS_LENGTH,
        ciravehy::STATE_WORDS,
        ciravehy::STATE_WORDS,
        ciravehy::STATE_WORDS,
        ciravehy::SEEN_WORDS,
        ciravehy::NODE_LIST_LENGTH,
        ciravehy::TRIPLE_LIST_LENGTH,
        ciravehy::INDEX_LENGTH,
    ];
    assert_eq!(NEEDED, lengths);
}

#[test]
fn right_answers_pass() {
    for seed in 0..60 {
        let case = case(seed);
        let input = Input::new(&case.pack, &case.query, &case.text);
        let answers = &answers(input.pack, input.query, input.text);
        let mut driver = Driver::new(Model);
        assert_eq!(driver.case(seed, Case { input, answers }), Ok(()));
        // Three calls on whole buffers, and one for each short buffer.
        assert_eq!(driver.tally.total(), 4 * 3 + 5 + 8 + 13);
    }
    assert_eq!(compare(Model, &taken()), Ok(()));
    assert_eq!(compare(Model, &clashing()), Ok(()));
    assert_eq!(compare(Model, &encode(&several())), Ok(()));
}

#[test]
fn an_entry_less_is_too_short() {
    let answers = &answers(&taken(), b"name", b"sty:r1");
    let pack = taken();
    let input = Input::new(&pack, b"name", b"sty:r1");
    let case = Case { input, answers };
    let mut driver = Driver::new(Model);
    assert_eq!(driver.one_less(case), Ok(()));
    assert_eq!(driver.tally.total(), 5 + 8 + 13);
    let mut driver = Driver::new(Faulty(|call, answer: &mut Answer, _: &mut Buffers| {
        if let (Call::YesNo, Err(refusal)) = (call, answer) {
            refusal.number = 2;
        }
    }));
    assert!(driver
        .one_less(case)
        .unwrap_err()
        .starts_with("yes/no, nodes=34047 "));
}

#[test]
fn a_wrong_count_is_noticed() {
    let said = said(&taken(), |_, answer, _| {
        if let Ok(Given::Graph(counts)) = answer {
            counts.triples += 1;
        }
    });
    assert!(said.starts_with("build, exact lengths: it gives"), "{said}");
}

#[test]
fn a_wrong_answer_is_noticed() {
    let no = said(&taken(), |_, answer, _| {
        if let Ok(Given::Truth(yes, _)) = answer {
            *yes = false;
        }
    });
    assert!(no.starts_with("yes/no, exact lengths: it gives"), "{no}");
    let count = said(&taken(), |_, answer, _| {
        if let Ok(Given::Pairs(count, _)) = answer {
            *count = 0;
        }
    });
    assert!(
        count.starts_with("pairs, exact lengths: it gives"),
        "{count}"
    );
    let term = said(&taken(), |_, answer, _| {
        if let Ok(Given::Term(term)) = answer {
            term.values[3] = 0;
        }
    });
    assert!(
        term.starts_with("read-back, exact lengths: it gives"),
        "{term}"
    );
}

#[test]
fn a_refusal_or_another_one_is_noticed() {
    let refuse = |number| {
        move |_: Call, answer: &mut Answer, _: &mut Buffers| {
            *answer = Err(Refusal {
                number,
                clash: None,
            })
        }
    };
    for pack in [taken(), clashing()] {
        for number in 1..=13 {
            assert!(compare(Faulty(refuse(number)), &pack).is_err());
        }
    }
}

#[test]
fn an_outcome_of_another_call_is_noticed() {
    // Even if the second program said so too.
    let pack = taken();
    let input = Input::new(&pack, b"name", b"sty:r1");
    let mut answers = answers(input.pack, input.query, input.text);
    answers.build = Err(second::Refusal::new(12));
    let mut driver = Driver::new(Faulty(|_, answer: &mut Answer, _: &mut Buffers| {
        *answer = Err(Refusal {
            number: 12,
            clash: None,
        })
    }));
    let answers = &answers;
    let said = driver.case(1, Case { input, answers }).unwrap_err();
    assert!(
        said.ends_with("refusal 12 is no outcome of this call"),
        "{said}"
    );
}

#[test]
fn a_changed_list_is_noticed() {
    for (buffer, call) in [
        (NODES, "build"),
        (TRIPLES, "build"),
        (INDEX, "build"),
        (PAIRS, "pairs"),
    ] {
        let front = said(&taken(), |_, answer, buffers| {
            if answer.is_ok() && buffers.lent[buffer].length() > 0 {
                buffers.lent[buffer].slice::<u16>()[1] ^= 1;
            }
        });
        let entry = format!("{call}, exact lengths: {}: entry 1 is ", NAMES[buffer]);
        assert!(front.starts_with(&entry), "{front}");
        let last = said(&taken(), |_, answer, buffers| {
            if answer.is_ok() {
                *buffers.lent[buffer].slice::<u16>().last_mut().unwrap() ^= 1;
            }
        });
        let entry = format!("{}: entry {} is ", NAMES[buffer], NEEDED[buffer] - 1);
        assert!(last.contains(&entry), "{last}");
        let refused = said(&clashing(), |_, _, buffers| {
            if let Some(first) = buffers.lent[buffer].slice::<u16>().first_mut() {
                *first ^= 1;
            }
        });
        assert!(refused.contains(": entry 0 is "), "{refused}");
    }
}

#[test]
fn a_wrong_index_is_noticed() {
    // The sample's index: 0 2, 0 0 of a literal, 0 0, 2 2, 4 1.
    for (entry, was, wrong) in [(0, 0, 1), (1, 2, 1), (2, 0, 2), (4, 0, 5), (9, 1, 0)] {
        let said = said(&taken(), |_, answer, buffers| {
            if answer.is_ok() && buffers.lent[INDEX].length() > 0 {
                buffers.lent[INDEX].slice::<u16>()[entry] = wrong;
            }
        });
        let expected = format!("index: entry {entry} is {wrong}, not {was}");
        assert!(said.ends_with(&expected), "{said}");
    }
}

#[test]
fn a_list_changed_by_too_many_pairs_is_noticed() {
    let pack = encode(&pairs_pack(64, 64, 1));
    let input = Input::new(&pack, b"p/q|r", b"");
    let answers = &answers(input.pack, input.query, input.text);
    for (buffer, name) in NAMES.into_iter().enumerate().take(ROWS) {
        let fault = |_, answer: &mut Answer, buffers: &mut Buffers| {
            if matches!(answer, Err(refusal) if refusal.number == 12) {
                buffers.lent[buffer].slice::<u16>()[0] ^= 1;
            }
        };
        let said = Driver::new(Faulty(fault)).case(7, Case { input, answers });
        let start = format!("pairs, exact lengths: {name}: entry 0 is ");
        assert!(said.unwrap_err().starts_with(&start), "{name}");
    }
}

#[test]
fn a_buffer_that_is_not_cleared_is_noticed() {
    for buffer in ROWS..COUNT {
        for pack in [taken(), clashing()] {
            let said = said(&pack, |_, _, buffers| {
                if let Some(last) = buffers.lent[buffer].bytes().last_mut() {
                    *last = 7;
                }
            });
            let entry = format!("{}: entry {} is ", NAMES[buffer], NEEDED[buffer] - 1);
            assert!(said.contains(&entry), "{said}");
            assert!(said.contains("not cleared"), "{said}");
        }
    }
}

#[test]
fn a_longer_buffer_that_is_not_all_cleared_is_noticed() {
    let said = said(&taken(), |_, _, buffers| {
        if buffers.lent[HEADS].length() > NEEDED[HEADS] {
            buffers.lent[HEADS].slice::<u64>()[NEEDED[HEADS]] = 9;
        }
    });
    assert!(
        said.contains("heads: entry 32768 is 9, not cleared"),
        "{said}"
    );
}

#[test]
fn a_touched_guard_entry_is_noticed() {
    for (buffer, name) in NAMES.into_iter().enumerate() {
        let before = said(&taken(), |call, _, buffers| {
            if lent_to(call).contains(&buffer) {
                buffers.lent[buffer].touch_before();
            }
        });
        let guard = format!("{name}: guard entry 1 before it is ");
        assert!(before.contains(&guard), "{before}");
        let behind = said(&clashing(), |call, _, buffers| {
            if lent_to(call).contains(&buffer) {
                buffers.lent[buffer].touch_behind();
            }
        });
        let guard = format!("{name}: guard entry 1 behind it is ");
        assert!(behind.contains(&guard), "{behind}");
    }
}

#[test]
fn a_buffer_touched_after_1_is_noticed() {
    for (buffer, name) in NAMES.into_iter().enumerate() {
        let said = said(&taken(), |call, answer, buffers| {
            let refused = matches!(answer, Err(refusal) if refusal.number == 1);
            if refused && lent_to(call).contains(&buffer) {
                buffers.lent[buffer].bytes().fill(0);
            }
        });
        let entry = format!("{name}: entry 0 is 0, but it was ");
        assert!(said.contains(&entry), "{said}");
    }
}

#[test]
fn a_short_buffer_that_is_taken_is_noticed() {
    let answers = &answers(&taken(), b"name", b"");
    for (buffer, needed) in NEEDED.into_iter().enumerate() {
        let said = said(&taken(), |call, answer, buffers| {
            let short = buffers.lent[buffer].length() < needed;
            if short && lent_to(call).contains(&buffer) {
                let (_, graph) = answers.yes_no.as_ref().unwrap();
                *answer = Ok(Given::Graph(ciravehy::Counts {
                    nodes: graph.nodes.len(),
                    triples: graph.triples.len(),
                }));
            }
        });
        assert!(said.contains("lengths: it gives Ok(Graph"), "{said}");
        assert!(said.ends_with(", not 1"), "{said}");
    }
}

#[test]
fn a_wrong_clash_is_noticed() {
    let shown = |change: fn(&mut Clash)| {
        said(&clashing(), move |_, answer, _| {
            if let Err(Refusal {
                clash: Some(clash), ..
            }) = answer
            {
                change(clash);
            }
        })
    };
    let same = shown(|clash| clash.objects[1] = clash.objects[0]);
    let subject = shown(|clash| clash.subject[2] ^= 2);
    let predicate = shown(|clash| clash.predicate += 1);
    let object = shown(|clash| clash.objects[0][1] = 0);
    let none = said(&clashing(), |_, answer, _| {
        if let Err(refusal) = answer {
            refusal.clash = None;
        }
    });
    for said in [same, subject, predicate, object, none] {
        assert!(
            said.starts_with("build, exact lengths: the clash is"),
            "{said}"
        );
    }
}

#[test]
fn a_clash_with_another_refusal_is_noticed() {
    let mut pack = sample();
    pack.rows.push(row(0, &[0, 2]));
    let said = said(&encode(&pack), |_, answer, _| {
        if let Err(refusal) = answer {
            refusal.clash = Some(Clash {
                subject: [0; 7],
                predicate: 0,
                objects: [[0; 7], [1; 7]],
            });
        }
    });
    assert!(said.contains("the clash is"), "{said}");
}

#[test]
fn another_clash_than_the_first_is_noticed() {
    // Another predicate or subject, the objects exchanged, other objects.
    let others = [
        clash(1, [0, 1]),
        clash(2, [0, 1]),
        clash(0, [1, 0]),
        clash(0, [0, 2]),
        clash(0, [1, 2]),
    ];
    for wrong in [Call::Build, Call::YesNo, Call::Pairs] {
        for other in &others {
            let said = said(&encode(&several()), |call, answer, _| match answer {
                Err(refusal) if call == wrong => refusal.clash = Some(other.clone()),
                _ => {}
            });
            let start = format!("{wrong}, exact lengths: the clash is");
            assert!(said.starts_with(&start), "{said}");
        }
    }
}

#[test]
fn another_answer_in_a_later_call_is_noticed() {
    let starts = ["build, exact ", "build, nodes=", "small numbers in the "];
    for (wrong, start) in starts.into_iter().enumerate() {
        let mut calls = 0;
        let said = said(&clashing(), |_, answer, _| {
            if let Err(Refusal {
                clash: Some(clash), ..
            }) = answer
            {
                if calls == wrong {
                    clash.objects.swap(0, 1);
                }
                calls += 1;
            }
        });
        assert!(said.starts_with(start), "{said}");
        assert!(said.contains("lengths: the clash is"), "{said}");
    }
}

#[test]
fn an_answer_that_depends_on_what_a_buffer_held_is_noticed() {
    let first = clash(0, [0, 1]);
    let second = clash(1, [0, 1]);
    // By the first entry: 1 gives another clash, or the entry is a place.
    let one = vec![first.clone(), second.clone(), first.clone()];
    let place = vec![first, second, clash(2, [0, 1])];
    for (buffer, name) in NAMES.into_iter().enumerate() {
        for clashes in [&one, &place] {
            let noticed = (0..60).filter_map(|seed| {
                let clashes = clashes.clone();
                let calls = Peeking { buffer, clashes };
                compare_seed(seed, calls, &encode(&several())).err()
            });
            let small = |said: &String| said.starts_with("small numbers in the buffers, ");
            assert!(noticed.filter(small).count() > 2, "{name}");
        }
    }
}

#[test]
fn small_numbers_are_lent_between_large_ones() {
    type Fault = fn(&mut Lent);
    let random = &mut Random::new(3);
    let mut buffers = Buffers::guarded();
    let faults: [(Fault, &str); 3] = [
        (Lent::touch_before, "guard entry 1 before it"),
        (Lent::touch_behind, "guard entry 1 behind it"),
        (|lent| lent.bytes()[0] ^= 1, "entry 0 is"),
    ];
    for (fault, entry) in faults {
        buffers.lend(&longer(random), Place::Within, random);
        buffers.fill(Call::Pairs, Numbers::Small, random);
        for lent in &mut buffers.lent {
            assert!(lent.entries().next() < Some(40));
            assert!(lent.entries().all(|number| number < 40 + 64));
            assert_eq!(lent.check(Left::Kept), Ok(()));
            fault(lent);
            let said = lent.check(Left::Kept).unwrap_err();
            assert!(said.contains(entry), "{said}");
        }
    }
}

#[test]
fn an_outcome_that_never_occurs_is_missing() {
    let mut tally = Tally::default();
    let all: Vec<_> = Call::ALL
        .into_iter()
        .flat_map(|call| {
            outcomes(call)
                .into_iter()
                .map(move |outcome| (call, outcome))
        })
        .collect();
    assert_eq!(tally.missing(), all);
    for (number, (call, outcome)) in all.iter().enumerate() {
        tally.add(*call, *outcome);
        assert_eq!(tally.missing(), all[number + 1..]);
    }
}

#[test]
fn the_limits_have_the_stated_outcomes() {
    let mut driver = Driver::new(Model);
    for limit in limits() {
        let input = Input::new(&limit.pack, &limit.query, b"");
        let found = driver.outcome(limit.call, input);
        assert_eq!(found, limit.outcome, "{}", limit.title);
    }
}

#[test]
fn what_certain_prints_is_read_from_the_lists() {
    let mut driver = Driver::new(Model);
    let found = driver.certain(Input::new(&taken(), b"[family/lead]/name", b""));
    assert_eq!(found, "certain yes\npairs 1\n<sty:r1> \"Roman\"\n");
    let found = driver.certain(Input::new(&clashing(), b"name", b""));
    assert_eq!(found, "refused 10\n");
    let mut driver = Driver::new(Faulty(|call, _: &mut _, buffers: &mut Buffers| {
        if call == Call::Pairs {
            buffers.lent[PAIRS].slice::<u16>()[1] = 0;
        }
    }));
    let found = driver.certain(Input::new(&taken(), b"name", b""));
    assert_eq!(found, "certain yes\npairs 1\n<sty:r1> <sty:r1>\n");
}
