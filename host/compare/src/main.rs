//! Measures the proved library beside other ways to keep names.
//!
//! `compare FOLDER [NAME=LIBRARY ..]` writes FOLDER/benchmark.md and
//! FOLDER/benchmark.svg, and the list and the book that were measured with. A
//! library is one of peers/, compiled; a name without one is left out, and the
//! page says so. It is run by benchmark.sh.

mod counting;
mod items;
mod loaded;
mod merging;
mod salvaging;
// As `bench` measures it.
#[path = "../../bench/src/stack.rs"]
mod stack;
mod timing;

use compare::plot::drawing;
use compare::steps::{Figures, Step};
use compare::tables::{page, About};
use items::{items, Call, Data, Item};
use loaded::Loaded;
use model::layout::node_count;
use std::collections::BTreeMap;
use std::hint::black_box;
use std::path::Path;
use std::process::ExitCode;
use std::{env, fs};

/// Code, first and second number of an answer; then how far a question looked that
/// tells it, visits and entries, and two zeros behind every other answer.
pub type Numbers = [usize; 5];

/// The numbers of an answer that does not tell how far it looked.
pub const fn answered([code, first, second]: [usize; 3]) -> Numbers {
    [code, first, second, 0, 0]
}

fn main() -> ExitCode {
    let words: Vec<String> = env::args().skip(1).collect();
    let done = match words.split_first() {
        None => Err("compare FOLDER [NAME=LIBRARY ..]".to_string()),
        Some((word, peers)) if word == counting::INNER => make_all(peers),
        Some((folder, peers)) => measure(Path::new(folder), peers),
    };
    match done {
        Ok(()) => ExitCode::SUCCESS,
        Err(message) => {
            eprintln!("{message}");
            ExitCode::FAILURE
        }
    }
}

/// Other libraries.
#[derive(Default)]
struct Peers {
    /// Those that are here, with their names.
    loaded: Vec<(String, Loaded)>,
    /// A sentence for each that is not.
    left_out: Vec<String>,
}

/// The libraries that the words name.
fn load(words: &[String]) -> Result<Peers, String> {
    let mut peers = Peers::default();
    for word in words {
        match word.split_once('=') {
            None => return Err(format!("{word}: a name, =, and a library")),
            Some((name, "")) => peers.left_out.push(format!(
                "{name} is left out: its package is not installed, or does not compile here."
            )),
            Some((name, file)) => {
                let library = Loaded::load(file)?;
                peers.loaded.push((name.trim().to_string(), library));
            }
        }
    }
    Ok(peers)
}

/// Makes every call, to be counted from outside.
fn make_all(words: &[String]) -> Result<(), String> {
    let (_, mut items) = items(Data::make(), &load(words)?.loaded);
    counting::make_all(&mut items)
}

/// Measures everything and writes the files.
fn measure(folder: &Path, words: &[String]) -> Result<(), String> {
    let Peers { loaded, left_out } = load(words)?;
    let data = Data::make();
    let (subjects, mut items) = items(data, &loaded);
    let work = folder.join("profiles");
    fs::create_dir_all(&work).map_err(|error| format!("{}: {error}", work.display()))?;

    eprintln!("instructions");
    let instructions = counting::count(&items, words, &work)?;
    let sort = merging::count_sort(data, &work)?;
    fs::remove_dir_all(&work).map_err(|error| format!("{}: {error}", work.display()))?;
    eprintln!("stack");
    let mut stacks = BTreeMap::new();
    for item in items.iter_mut().filter(|item| item.step != Step::Nothing) {
        stacks.insert((item.subject, item.step), deepest(item)?);
    }
    eprintln!("time");
    let times = timing::time(&mut items);

    let figures = Figures {
        instructions,
        times,
        stacks,
        sort,
    };
    let about = About {
        names: data.names.len(),
        list: data.list.len(),
        nodes: node_count(model::Rule::Plain, &data.names),
        questions: data.questions.len(),
        merged: data.parts.each_ref().map(Vec::len),
        folded: [data.folded.names, data.folded.book.len()],
        rounds: timing::ROUNDS,
        left_out,
    };
    let page = page(&about, &subjects, &figures);
    print!("{page}");
    for (name, bytes) in [
        ("benchmark.md", page.as_bytes()),
        ("benchmark.svg", drawing(&subjects, &figures).as_bytes()),
        ("stations.list", &data.list),
        ("stations.book", &data.book),
        ("stations-folded.list", &data.folded.list),
        ("stations-folded.book", &data.folded.book),
    ] {
        let path = folder.join(name);
        fs::write(&path, bytes).map_err(|error| format!("{}: {error}", path.display()))?;
    }
    Ok(())
}

/// How deep the stack grows, with all inputs.
fn deepest(item: &mut Item) -> Result<usize, String> {
    let call = &mut item.call;
    let all_turns = || {
        for turn in 0..call.turns() {
            black_box(call.make(black_box(turn)));
        }
    };
    let (subject, step) = (item.subject, item.step);
    let measured = stack::deepest(all_turns);
    let (_, depth) = measured.map_err(|error| format!("subject {subject}, {step:?}: {error}"))?;
    Ok(depth)
}
