//! Asks a query of a pack: `cargo run --example ask -- catalogue.pack '[family/lead]/name'`.
use ciravehy::{Kind, Node, Refusal, Service};
use std::process::ExitCode;

fn main() -> ExitCode {
    let words: Vec<String> = std::env::args().skip(1).collect();
    let [file, query] = &words[..] else {
        eprintln!("use: ask PACK QUERY");
        return ExitCode::from(2);
    };
    let pack = match std::fs::read(file) {
        Ok(pack) => pack,
        Err(error) => {
            eprintln!("{file}: {error}");
            return ExitCode::from(2);
        }
    };
    match ask(&pack, query.as_bytes()) {
        Ok(()) => ExitCode::SUCCESS,
        Err(refusal) => {
            println!("{refusal}");
            if let Some(clash) = refusal.clash {
                let [first, second] = clash.objects.map(Node::of);
                println!("{}, predicate {}: {} and {}", name(&Node::of(clash.subject)), clash.predicate, name(&first), name(&second));
            }
            ExitCode::FAILURE
        }
    }
}

/// Prints the answer and the pairs.
fn ask(pack: &[u8], query: &[u8]) -> Result<(), Refusal> {
    let mut service = Service::new();
    println!("certain {}", if service.yes_no(pack, query)? { "yes" } else { "no" });
    let found = service.pairs(pack, query)?;
    println!("pairs {}", found.pairs.len());
    for pair in &found.pairs {
        let [start, end] = [pair.start, pair.end].map(|n| name(&found.graph.nodes[usize::from(n)]));
        println!("{start} -> {end}");
    }
    Ok(())
}

/// A node by its numbers in the pack.
fn name(node: &Node) -> String {
    match node.kind {
        Kind::Iri => format!("constructor {} of values {:?}", node.number, node.arguments()),
        Kind::Literal => format!("value {}", node.number),
        Kind::InventedLiteral => "an invented literal".to_owned(),
        Kind::Invented => format!("an invented node of types {:#b}", node.types),
    }
}
