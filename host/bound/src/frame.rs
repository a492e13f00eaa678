//! How deep the frame of a function gets, and how deep it is at each call.
//!
//! A function begins with one word of stack, its return address. From there its
//! code is followed along every jump, and each instruction that can be reached
//! gets the one depth with which it is reached. Two ways that come to it with
//! different depths are an error, and so are a way that leaves the function's
//! bytes, one that pops what was not pushed, and one that returns, or goes over
//! to another function, with anything but the return address left. Code that no
//! way comes to is an error as well, unless it only fills a gap: there may be a
//! way that was not seen.

use crate::object::{Code, Instruction};
use crate::step::{self, is_filler, Named, Step, WORD};
use std::collections::BTreeMap;

/// How many bytes below the stack pointer a function may use, by the calling
/// convention, without moving it. Compilers do that in functions that call
/// nothing. So where such a function names the stack pointer in an address, or
/// copies it, all of these bytes are counted; one that makes calls and names an
/// address below the stack pointer is an error.
pub const RED_ZONE: u64 = 128;

/// The frame of a function. All bytes count from where its caller's end, so the
/// return address is among them.
#[derive(Debug, PartialEq, Eq)]
pub struct Frame {
    /// How many bytes it has where it is deepest.
    pub peak: u64,
    /// The calls of other functions and the jumps to them.
    pub exits: Vec<Exit>,
}

/// A call, or a jump to another function.
#[derive(Clone, Debug, PartialEq, Eq)]
pub struct Exit {
    /// Where it goes.
    pub to: Destination,
    /// How many bytes the frame has while the other function runs. After a jump
    /// it has none: the return address is the other one's then.
    pub held: u64,
}

/// Where a call or a jump goes.
#[derive(Clone, Debug, PartialEq, Eq)]
pub enum Destination {
    /// To this offset in its own section.
    Offset(u64),
    /// To so many bytes behind a symbol, or behind the start of a section.
    Behind(String, i64),
}

/// A function while its code is followed.
struct Walk<'a> {
    /// The section that it stands in.
    code: &'a Code,
    /// The offset of its first byte.
    start: u64,
    /// The offset behind its last byte.
    end: u64,
    /// With how many bytes of stack each instruction is reached.
    depths: BTreeMap<u64, i64>,
    /// The instructions that were reached and not yet looked at.
    open: Vec<u64>,
    /// The calls and jumps to other functions that were found.
    exits: Vec<Exit>,
    /// Whether there is a call among them.
    has_call: bool,
    /// The most that an instruction says of the stack pointer.
    named: Named,
}

/// The frame of the function of so many bytes at an offset of a section.
pub fn frame(code: &Code, start: u64, size: u64) -> Result<Frame, String> {
    let mut walk = Walk {
        code,
        start,
        end: start.saturating_add(size),
        depths: BTreeMap::new(),
        open: Vec::new(),
        exits: Vec::new(),
        has_call: false,
        named: Named::Not,
    };
    walk.reach(start, WORD)?;
    while let Some(offset) = walk.open.pop() {
        let instruction = &code[&offset];
        walk.look(offset, instruction)
            .map_err(|why| format!("at {offset:#x}, `{}`: {why}", instruction.text))?;
    }
    walk.finish()
}

impl Walk<'_> {
    /// Notes that an instruction is reached with so many bytes of stack.
    fn reach(&mut self, offset: u64, depth: i64) -> Result<(), String> {
        if !(self.start..self.end).contains(&offset) || !self.code.contains_key(&offset) {
            return Err(format!(
                "the function goes on at {offset:#x}, where it has no instruction"
            ));
        }
        match self.depths.insert(offset, depth) {
            None => self.open.push(offset),
            Some(before) if before == depth => (),
            Some(before) => {
                return Err(format!(
                    "{offset:#x} is reached with {before} bytes of stack and with {depth}"
                ));
            }
        }
        Ok(())
    }

    /// Notes that the instruction behind this one is reached.
    fn reach_next(&mut self, offset: u64, depth: i64) -> Result<(), String> {
        let next = self.code.range(offset + 1..).next();
        self.reach(next.map_or(self.end, |(&next, _)| next), depth)
    }

    /// Looks at an instruction that was reached.
    fn look(&mut self, offset: u64, instruction: &Instruction) -> Result<(), String> {
        let depth = self.depths[&offset];
        match step::read(&instruction.text)? {
            Step::Plain(named) => {
                self.named = self.named.max(named);
                self.reach_next(offset, depth)
            }
            Step::Takes(bytes) => {
                let deeper = depth + bytes;
                if deeper < WORD {
                    return Err("it takes the return address from the stack".to_string());
                }
                self.reach_next(offset, deeper)
            }
            Step::Calls(target) => {
                self.has_call = true;
                self.leave(destination(instruction, target)?, depth);
                self.reach_next(offset, depth)
            }
            Step::Jumps(target) => self.jump(destination(instruction, target)?, depth),
            Step::MayJump(target) => {
                self.jump(destination(instruction, target)?, depth)?;
                self.reach_next(offset, depth)
            }
            Step::Returns => only_the_return_address(depth),
            Step::Stops => Ok(()),
        }
    }

    /// Follows a jump: inside of the function, or over to another one.
    fn jump(&mut self, to: Destination, depth: i64) -> Result<(), String> {
        match to {
            Destination::Offset(offset) if (self.start..self.end).contains(&offset) => {
                self.reach(offset, depth)
            }
            _ => {
                only_the_return_address(depth)?;
                self.leave(to, depth - WORD);
                Ok(())
            }
        }
    }

    /// Notes a call, or a jump to another function.
    fn leave(&mut self, to: Destination, held: i64) {
        let held = held.unsigned_abs();
        self.exits.push(Exit { to, held });
    }

    /// The frame, once all of the code was followed.
    fn finish(self) -> Result<Frame, String> {
        let mut code = self.code.range(self.start..self.end);
        let unseen = |offset: &u64| !self.depths.contains_key(offset);
        let missed = code.find(|(offset, line)| unseen(offset) && !is_filler(&line.text));
        if let Some((offset, Instruction { text, .. })) = missed {
            return Err(format!("no way leads to {offset:#x}, `{text}`"));
        }
        let peak = self.depths.values().copied().max().unwrap_or(WORD);
        let zone = match (self.has_call, self.named) {
            (true, Named::Below) => {
                return Err("it names an address below the stack pointer, and calls".to_string());
            }
            (false, Named::AsBase | Named::Below) => RED_ZONE,
            _ => 0,
        };
        Ok(Frame {
            peak: peak.unsigned_abs() + zone,
            exits: self.exits,
        })
    }
}

/// An error where anything but the return address is left.
fn only_the_return_address(depth: i64) -> Result<(), String> {
    if depth == WORD {
        return Ok(());
    }
    Err(format!(
        "it leaves the function with {depth} bytes of stack, not with {WORD}"
    ))
}

/// Where a jump or a call goes: to the printed offset, or where its relocation
/// says. That counts from its own place, the last four bytes of the instruction,
/// and the processor from behind them.
fn destination(instruction: &Instruction, printed: u64) -> Result<Destination, String> {
    match &instruction.relocations[..] {
        [] => Ok(Destination::Offset(printed)),
        [relocation] if ["R_X86_64_PLT32", "R_X86_64_PC32"].contains(&&*relocation.kind) => Ok(
            Destination::Behind(relocation.symbol.clone(), relocation.addend + 4),
        ),
        _ => Err("its relocation is not understood".to_string()),
    }
}

#[cfg(test)]
mod tests {
    use super::*;
    use crate::object;

    /// The frame of a function with these instructions, as objdump prints them,
    /// which is followed by another one.
    fn framed(lines: &str) -> Result<Frame, String> {
        let head = "a.o:     file format elf64-x86-64\nDisassembly of section .text:\n";
        let objects = object::read(&format!("{head}{lines}\n  100:\tret\n")).unwrap();
        frame(&objects[0].sections[".text"], 0, 0x100)
    }

    /// The frame of a function that is understood, and where its calls go with
    /// how many bytes.
    fn peak_and_exits(lines: &str) -> (u64, Vec<(Destination, u64)>) {
        let frame = framed(lines).unwrap();
        let exits = frame.exits.into_iter().map(|exit| (exit.to, exit.held));
        (frame.peak, exits.collect())
    }

    /// That a function is refused, with these words among the reasons.
    fn refused(lines: &str, why: &str) {
        let error = framed(lines).unwrap_err();
        assert!(error.contains(why), "{error}");
    }

    #[test]
    fn a_plain_frame() {
        let lines = "   0:\tsub    $0x18,%rsp
   4:\tcall   9 <f+0x9>
\t\t\t5: R_X86_64_PLT32\tmemcpy-0x4
   9:\tadd    $0x18,%rsp
   d:\tret";
        let exit = (Destination::Behind("memcpy".to_string(), 0), 32);
        assert_eq!(peak_and_exits(lines), (32, vec![exit]));
    }

    #[test]
    fn pushes_count_and_arguments_on_the_stack_too() {
        let lines = "   0:\tpush   %rbp
   1:\tpush   %rbx
   2:\tsub    $0x28,%rsp
   6:\tcall   100 <g>
   b:\tpush   %r10
   d:\tpush   $0x0
   f:\tcall   0 <f>
  14:\tadd    $0x10,%rsp
  18:\tadd    $0x28,%rsp
  1c:\tpop    %rbx
  1d:\tpop    %rbp
  1e:\tret";
        let exits = vec![
            (Destination::Offset(0x100), 64),
            (Destination::Offset(0), 80),
        ];
        assert_eq!(peak_and_exits(lines), (80, exits));
    }

    #[test]
    fn each_branch_has_its_own_depth() {
        let lines = "   0:\ttest   %rdi,%rdi
   3:\tje     20 <f+0x20>
   5:\tpush   %rbx
   6:\tcall   100 <g>
   b:\tpop    %rbx
   c:\tret
  20:\tsub    $0x108,%rsp
  27:\tcall   200 <h>
  2c:\tadd    $0x108,%rsp
  33:\tret";
        let mut found = peak_and_exits(lines);
        found.1.sort_by_key(|exit| exit.1);
        let exits = vec![
            (Destination::Offset(0x100), 16),
            (Destination::Offset(0x200), 272),
        ];
        assert_eq!(found, (272, exits));
    }

    #[test]
    fn a_jump_to_another_function_holds_nothing() {
        let lines = "   0:\tpush   %rbx
   1:\tpop    %rbx
   2:\tjne    100 <g>
   4:\tjmp    9 <f+0x9>
\t\t\t5: R_X86_64_PLT32\t.text.h+0x1c";
        let exits = vec![
            (Destination::Offset(0x100), 0),
            (Destination::Behind(".text.h".to_string(), 0x20), 0),
        ];
        assert_eq!(peak_and_exits(lines), (16, exits));
        refused("   0:\tpush   %rbx\n   1:\tjmp    100 <g>", "16 bytes");
    }

    #[test]
    fn a_loop_keeps_its_depth() {
        let steady = "   0:\tpush   %rbx
   1:\tdec    %rdi
   4:\tjne    1 <f+0x1>
   6:\tpop    %rbx
   7:\tret";
        assert_eq!(peak_and_exits(steady), (16, vec![]));
        let growing = steady.replace("1 <f+0x1>", "0 <f>");
        refused(&growing, "is reached with");
    }

    #[test]
    fn bytes_below_the_stack_pointer_count_where_nothing_is_called() {
        let leaf = "   0:\tmov    %rdi,-0x8(%rsp)\n   5:\tret";
        assert_eq!(peak_and_exits(leaf), (8 + RED_ZONE, vec![]));
        let copied = "   0:\tpush   %rbp\n   1:\tmov    %rsp,%rbp\n   4:\tpop    %rbp\n   5:\tret";
        assert_eq!(peak_and_exits(copied), (16 + RED_ZONE, vec![]));
        let calls = "   0:\tmov    %rdi,-0x8(%rsp)\n   5:\tcall   100 <g>\n   a:\tret";
        refused(calls, "below the stack pointer");
    }

    #[test]
    fn what_is_not_understood_is_refused() {
        refused("   0:\tsub    %rax,%rsp\n   3:\tret", "not a number");
        refused(
            "   0:\tand    $0xffffffffffffffe0,%rsp\n   4:\tret",
            "not a number",
        );
        refused("   0:\tcall   *%rax\n   2:\tret", "not known");
        refused("   0:\tpop    %rbx\n   1:\tret", "return address");
        refused("   0:\tpush   %rbx\n   1:\tret", "16 bytes");
        refused("   0:\tnop", "no instruction");
        refused("   0:\tjmp    2 <f+0x2>\n   3:\tret", "no instruction");
        let got = "   0:\tcall   5 <f+0x5>\n\t\t\t1: R_X86_64_GOTPCRELX\tg-0x4\n   5:\tret";
        refused(got, "relocation");
    }

    #[test]
    fn only_fillers_may_stand_where_no_way_leads() {
        let lines = "   0:\tret\n   1:\tnopl   0x0(%rax)\n   8:\txchg   %ax,%ax";
        assert_eq!(peak_and_exits(lines), (8, vec![]));
        refused("   0:\tret\n   1:\tpush   %rbx", "no way leads to 0x1");
    }
}
