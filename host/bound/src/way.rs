//! The deepest way from a function, and the one cycle.

use crate::function::{Callee, Function};
use crate::step::WORD;

/// How often each function of the cycle can be active at a time.
///
/// It is proved in `crates/inspect/proofs/+check_node+check_row/Proof.antt`: the
/// measure of the cycle falls with each of its calls, and is twice the lesser of
/// the names that are left and 199 less the depth, and one more for a node. It
/// is at most 399, odd for a node and even for a row, so on no way down are there
/// more than 200 nodes or more than 200 rows. What the compiler makes of them is
/// active no more often: where it puts one into the other, a frame is of both.
pub const MOST_LEVELS: u64 = 200;

/// The functions that may call each other in a cycle. Any other cycle is an
/// error.
pub const CYCLE: [&str; 2] = ["inspect::check_node", "inspect::check_row"];

/// A way down the stack.
#[derive(Clone, Debug, PartialEq, Eq)]
pub struct Way {
    /// All its bytes.
    pub bytes: u64,
    /// The frames on it, outermost first.
    pub frames: Vec<Held>,
}

/// A frame on a way, or several like it.
#[derive(Clone, Debug, PartialEq, Eq)]
pub struct Held {
    /// Whose it is.
    pub name: String,
    /// How many bytes it has on this way.
    pub bytes: u64,
    /// How often it is there.
    pub times: u64,
}

/// Functions that call each other in a cycle, with the most that each of them
/// holds while it calls another one of them.
#[derive(Debug, PartialEq, Eq)]
pub struct Cycle {
    /// The name of the object that they stand in.
    pub object: String,
    /// A frame for each function, as often as it can be active.
    pub levels: Vec<Held>,
}

impl Way {
    /// A way of these frames.
    fn of(frames: Vec<Held>) -> Way {
        Way {
            bytes: frames.iter().map(|held| held.bytes * held.times).sum(),
            frames,
        }
    }
}

impl Cycle {
    /// What a level of the cycle takes: a frame of each function.
    pub fn level(&self) -> u64 {
        self.levels.iter().map(|held| held.bytes).sum()
    }
}

/// The functions of an archive, with the deepest way from each.
#[derive(Clone, Debug)]
pub struct Ways<'a> {
    /// The functions.
    functions: &'a [Function],
    /// Of each function the numbers of those that it can come to by calls.
    reached: Vec<Vec<bool>>,
    /// How often each function of the cycle is active at a time, at most.
    most_levels: u64,
}

/// What fits a stack.
#[derive(Clone, Copy, Debug, PartialEq, Eq)]
pub enum Fit {
    /// Nothing.
    Nothing,
    /// Books of so many levels, and no more.
    Levels(u64),
    /// Any bytes.
    Any,
}

impl<'a> Ways<'a> {
    /// Looks at how the functions call each other. A cycle that is not the one
    /// whose depth is proved is an error.
    pub fn of(functions: &'a [Function]) -> Result<Ways<'a>, String> {
        let reached = (0..functions.len()).map(|number| reached_from(functions, number));
        let ways = Ways {
            functions,
            reached: reached.collect(),
            most_levels: MOST_LEVELS,
        };
        for number in (0..functions.len()).filter(|&number| ways.reached[number][number]) {
            let name = &*functions[number].name;
            if !CYCLE.contains(&name) {
                return Err(format!(
                    "{name} can come to be called by itself, and how often is proved only of {}",
                    CYCLE.join(" and ")
                ));
            }
        }
        Ok(ways)
    }

    /// What fits a stack of so many bytes, where this function is called.
    pub fn fit(&self, number: usize, bytes: u64) -> Fit {
        let fits = |most_levels: &u64| {
            let ways = Ways {
                most_levels: *most_levels,
                ..self.clone()
            };
            ways.deepest(number).bytes <= bytes
        };
        match (1..=MOST_LEVELS).rev().find(fits) {
            None => Fit::Nothing,
            Some(MOST_LEVELS) => Fit::Any,
            Some(levels) => Fit::Levels(levels),
        }
    }

    /// The cycles.
    pub fn cycles(&self) -> Vec<Cycle> {
        let mut cycles = Vec::new();
        for number in 0..self.functions.len() {
            let members = self.members(number);
            if members.first() == Some(&number) {
                cycles.push(self.cycle(&members));
            }
        }
        cycles
    }

    /// The deepest way from a function.
    pub fn deepest(&self, number: usize) -> Way {
        let members = self.members(number);
        if members.is_empty() {
            return self.deepest_outside(number, &[]);
        }
        let levels = self.cycle(&members).levels;
        let ways = (0..members.len()).map(|last| self.through(&levels, &members, last));
        ways.max_by_key(|way| way.bytes)
            .expect("a cycle has a function")
    }

    /// The deepest way through all levels of a cycle whose last frame is this
    /// member's: that one of its frames goes on outside of the cycle.
    fn through(&self, levels: &[Held], members: &[usize], last: usize) -> Way {
        let mut frames = levels.to_vec();
        let on = self.deepest_outside(members[last], members);
        if on.frames == [once(&frames[last].name, frames[last].bytes)] {
            return Way::of(frames);
        }
        frames[last].times -= 1;
        frames.extend(on.frames);
        Way::of(frames)
    }

    /// The deepest way from a function that makes none of the calls of a cycle.
    fn deepest_outside(&self, number: usize, members: &[usize]) -> Way {
        let function = &self.functions[number];
        let alone = Way::of(vec![once(&function.name, function.peak)]);
        let ways = function.calls.iter().filter_map(|call| {
            let mut frames = vec![once(&function.name, call.held)];
            match &call.callee {
                Callee::Inside(callee) if members.contains(callee) => return None,
                Callee::Inside(callee) => frames.extend(self.deepest(*callee).frames),
                Callee::Outside(name) => frames.push(once(name, WORD.unsigned_abs())),
            }
            Some(Way::of(frames))
        });
        ways.fold(alone, |deepest, way| {
            if way.bytes > deepest.bytes {
                way
            } else {
                deepest
            }
        })
    }

    /// The functions that are in a cycle with this one, itself among them; none
    /// where it is in no cycle.
    fn members(&self, number: usize) -> Vec<usize> {
        let others = 0..self.functions.len();
        others
            .filter(|&other| self.reached[number][other] && self.reached[other][number])
            .collect()
    }

    /// The cycle of these functions.
    fn cycle(&self, members: &[usize]) -> Cycle {
        let level = |&number: &usize| {
            let function = &self.functions[number];
            let calls = function.calls.iter();
            let inner = calls.filter(|call| match call.callee {
                Callee::Inside(callee) => members.contains(&callee),
                Callee::Outside(_) => false,
            });
            Held {
                name: function.name.clone(),
                bytes: inner.map(|call| call.held).max().unwrap_or(0),
                times: self.most_levels,
            }
        };
        let object = members
            .first()
            .map(|&number| &self.functions[number].object);
        Cycle {
            object: object.cloned().unwrap_or_default(),
            levels: members.iter().map(level).collect(),
        }
    }
}

/// A frame that is there once.
fn once(name: &str, bytes: u64) -> Held {
    Held {
        name: name.to_string(),
        bytes,
        times: 1,
    }
}

/// Which functions this one can come to by one call or more.
fn reached_from(functions: &[Function], number: usize) -> Vec<bool> {
    let mut reached = vec![false; functions.len()];
    let mut open = vec![number];
    while let Some(caller) = open.pop() {
        for call in &functions[caller].calls {
            if let Callee::Inside(callee) = call.callee {
                if !reached[callee] {
                    reached[callee] = true;
                    open.push(callee);
                }
            }
        }
    }
    reached
}

#[cfg(test)]
mod tests {
    use super::*;
    use crate::{function, object};

    /// Functions with a section for each, as objdump prints them. A line that
    /// begins with > is a call or a jump to the function that it names.
    fn functions(bodies: &[(&str, &str)]) -> Vec<Function> {
        let mut text = "a.o:     file format elf64-x86-64\nSYMBOL TABLE:\n".to_string();
        for (name, _) in bodies {
            text += &format!("0000000000000000 g     F .text.{name}\t0000000000000100 {name}\n");
        }
        text += "0000000000000000         *UND*\t0000000000000000 memset\n";
        for (name, body) in bodies {
            text += &format!("Disassembly of section .text.{name}:\n");
            for (number, line) in body.lines().enumerate() {
                let offset = 8 * number;
                match line.strip_prefix('>').and_then(|line| line.split_once(' ')) {
                    None => text += &format!("{offset:4x}:\t{line}\n"),
                    Some((instruction, callee)) => {
                        text += &format!("{offset:4x}:\t{instruction}   5 <x>\n");
                        text += &format!("\t\t\t{offset:x}: R_X86_64_PLT32\t{callee}-0x4\n");
                    }
                }
            }
        }
        function::functions(&object::read(&text).unwrap()).unwrap()
    }

    /// The deepest way from the first function, as text.
    fn deepest(bodies: &[(&str, &str)]) -> (u64, String) {
        let functions = functions(bodies);
        let way = Ways::of(&functions).unwrap().deepest(0);
        let frames = way.frames.iter();
        let frames = frames.map(|held| format!("{}*{} {}", held.times, held.bytes, held.name));
        (way.bytes, frames.collect::<Vec<_>>().join(", "))
    }

    #[test]
    fn the_deepest_of_several_calls_counts() {
        let (bytes, frames) = deepest(&[
            ("f", "push   %rbx\n>call g\n>call h\npop    %rbx\nret"),
            ("g", "push   %rbx\npop    %rbx\nret"),
            ("h", "push   %rbx\n>call memset\npop    %rbx\nret"),
        ]);
        assert_eq!((bytes, &*frames), (40, "1*16 f, 1*16 h, 1*8 memset"));
    }

    #[test]
    fn a_function_can_be_deeper_by_itself_than_in_its_calls() {
        let (bytes, frames) = deepest(&[
            ("f", ">call g\nsub    $0x40,%rsp\nadd    $0x40,%rsp\nret"),
            ("g", "ret"),
        ]);
        assert_eq!((bytes, &*frames), (72, "1*72 f"));
    }

    #[test]
    fn what_is_jumped_to_takes_the_place_of_the_caller() {
        let (bytes, frames) = deepest(&[
            ("f", ">jmp g"),
            ("g", "push   %rbx\n>call memset\npop    %rbx\nret"),
        ]);
        assert_eq!((bytes, &*frames), (24, "1*0 f, 1*16 g, 1*8 memset"));
    }

    #[test]
    fn a_function_that_calls_itself_counts_for_each_level() {
        let node = "inspect::check_node";
        let body = format!("sub    $0x28,%rsp\n>call {node}\nadd    $0x28,%rsp\nret");
        let (bytes, frames) =
            deepest(&[("book_check", &format!(">call {node}\nret")), (node, &body)]);
        assert_eq!(bytes, 8 + 200 * 48);
        assert_eq!(frames, format!("1*8 book_check, 200*48 {node}"));
    }

    #[test]
    fn the_last_level_may_go_deeper_outside_of_the_cycle() {
        let node = "inspect::check_node";
        let body = format!("push   %rbx\n>call {node}\npop    %rbx\n>call leaf\nret");
        let leaf = "sub    $0x100,%rsp\nadd    $0x100,%rsp\nret";
        let (bytes, frames) = deepest(&[(node, &body), ("leaf", leaf)]);
        assert_eq!(bytes, 199 * 16 + 8 + 264);
        assert_eq!(frames, format!("199*16 {node}, 1*8 {node}, 1*264 leaf"));
    }

    #[test]
    fn what_fits_is_told_by_levels() {
        let node = "inspect::check_node";
        let body = format!("sub    $0x28,%rsp\n>call {node}\nadd    $0x28,%rsp\nret");
        let check = format!(">call {node}\nret");
        let other = "sub    $0x100,%rsp\nadd    $0x100,%rsp\nret";
        let functions = functions(&[("book_check", &check), (node, &body), ("other", other)]);
        let ways = Ways::of(&functions).unwrap();
        let fits = [55, 56, 103, 104, 9607, 9608].map(|bytes| ways.fit(0, bytes));
        let levels = [
            Fit::Levels(1),
            Fit::Levels(1),
            Fit::Levels(2),
            Fit::Levels(199),
        ];
        assert_eq!(fits[0], Fit::Nothing);
        assert_eq!(fits[1..5], levels);
        assert_eq!(fits[5], Fit::Any);
        assert_eq!(
            [263, 264].map(|bytes| ways.fit(2, bytes)),
            [Fit::Nothing, Fit::Any]
        );
        assert_eq!(ways.deepest(0).bytes, 9608);
    }

    #[test]
    fn functions_that_call_each_other_count_both() {
        let (node, row) = (CYCLE[0], CYCLE[1]);
        let in_node = format!("push   %rbx\n>call {row}\npop    %rbx\nret");
        let in_row =
            format!("sub    $0x18,%rsp\n>call {node}\nadd    $0x18,%rsp\n>call memset\nret");
        let functions = functions(&[(node, &in_node), (row, &in_row)]);
        let ways = Ways::of(&functions).unwrap();
        assert_eq!(ways.deepest(0).bytes, 200 * (16 + 32));
        assert_eq!(ways.deepest(0), ways.deepest(1));
        let cycles = ways.cycles();
        assert_eq!(cycles.len(), 1);
        assert_eq!(cycles[0].object, "a.o");
        assert_eq!((cycles[0].level(), cycles[0].levels.len()), (48, 2));
    }

    #[test]
    fn any_other_cycle_is_refused() {
        for bodies in [
            [("f", "ret"), ("g", ">call g\nret")],
            [("f", ">call g\nret"), ("g", ">call f\nret")],
            [("f", ">jmp g"), ("g", ">jmp f")],
            [
                (CYCLE[0], ">call g\nret"),
                ("g", ">call inspect::check_node\nret"),
            ],
        ] {
            let functions = functions(&bodies);
            let error = Ways::of(&functions).unwrap_err();
            assert!(error.contains("called by itself"), "{error}");
        }
    }
}
