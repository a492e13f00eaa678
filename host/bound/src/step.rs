//! What one instruction does to the stack, and where it goes on.
//!
//! The stack pointer moves by `push` and `pop`, by `add`, `sub` and `lea` with a
//! number, and by a call and its return. Everything else that might move it is
//! an error: another instruction that writes to `rsp` or to a part of it, one
//! that moves it without naming it (`leave`, `enter`, interrupts, 16-bit pushes),
//! and any of these, or a jump, with a prefix.

use crate::object::hexadecimal;

/// What a word of the stack has, in bytes: what is pushed, a return address.
pub const WORD: i64 = 8;

/// What an instruction does.
#[derive(Clone, Copy, Debug, PartialEq, Eq)]
pub enum Step {
    /// It leaves the stack pointer where it is, and goes on.
    Plain(Named),
    /// So many bytes more are taken from the stack, fewer where it is negative.
    Takes(i64),
    /// It calls what stands at this offset, unless a relocation says otherwise.
    Calls(u64),
    /// It goes on at this offset, unless a relocation says otherwise.
    Jumps(u64),
    /// It goes on there, or behind it.
    MayJump(u64),
    /// It returns.
    Returns,
    /// It stops the program.
    Stops,
}

/// How an instruction that leaves the stack pointer alone names it.
#[derive(Clone, Copy, Debug, PartialEq, Eq, PartialOrd, Ord)]
pub enum Named {
    /// It doesn't.
    Not,
    /// As the base of an address, or to copy or compare it.
    AsBase,
    /// As the base of an address below it.
    Below,
}

/// Words that can stand before the name of an instruction.
const PREFIXES: [&str; 18] = [
    "addr32", "bnd", "cs", "data16", "ds", "es", "fs", "gs", "lock", "notrack", "rep", "repe",
    "repne", "repnz", "repz", "ss", "xacquire", "xrelease",
];

/// How the instructions begin that move the stack pointer without naming it, or
/// go elsewhere, and are not among those that are understood. `popcnt` only
/// looks like one.
const STRANGE: [&str; 18] = [
    "(", ".", "call", "enter", "int", "iret", "lcall", "leave", "ljmp", "loop", "lret", "pop",
    "push", "ret", "rsm", "sys", "uiret", "xbegin",
];

/// Those that are understood and may have a letter for their size behind them.
const SIZED: [&str; 11] = [
    "add", "call", "cmp", "jmp", "lea", "mov", "pop", "push", "ret", "sub", "test",
];

/// Other names of the stack pointer's lower parts.
const PARTS: [&str; 3] = ["esp", "sp", "spl"];

/// Reads an instruction.
pub fn read(text: &str) -> Result<Step, String> {
    // What follows these is there for people.
    let text = text.split(['#', '<']).next().unwrap_or_default();
    let (name, operands) = split_name(text);
    if PREFIXES.contains(&name) || name.starts_with("rex") {
        return match read(operands)? {
            Step::Plain(named) => Ok(Step::Plain(named)),
            _ => Err(format!("the prefix {name} stands before it")),
        };
    }
    if registers(operands).any(|register| PARTS.contains(&register)) {
        return Err("it names a part of the stack pointer".to_string());
    }
    match unsized_name(name) {
        "" => Err("there is no instruction".to_string()),
        "push" if is_word(operands) => Ok(Step::Takes(WORD)),
        "pop" if is_word_register(operands) => Ok(Step::Takes(-WORD)),
        "call" => Ok(Step::Calls(target(operands)?)),
        "ret" if operands.is_empty() => Ok(Step::Returns),
        "jmp" => Ok(Step::Jumps(target(operands)?)),
        "ud2" | "hlt" | "int3" => Ok(Step::Stops),
        name if name.starts_with('j') => Ok(Step::MayJump(target(operands)?)),
        name if is_strange(name) => Err("it may move the stack pointer".to_string()),
        name => with_operands(name, &split_operands(operands)),
    }
}

/// Whether compilers put this between pieces of code to fill a gap.
pub fn is_filler(text: &str) -> bool {
    let (name, operands) = split_name(text);
    if PREFIXES.contains(&name) {
        return is_filler(operands);
    }
    name.starts_with("nop") || name == "int3" || (name, operands) == ("xchg", "%ax,%ax")
}

/// The first word, and what follows it.
fn split_name(text: &str) -> (&str, &str) {
    let text = text.trim();
    let (name, rest) = text.split_once(' ').unwrap_or((text, ""));
    (name, rest.trim())
}

/// The name without the letter that says that it is about words of 8 bytes.
fn unsized_name(name: &str) -> &str {
    let bare = name.strip_suffix('q').unwrap_or(name);
    if SIZED.contains(&bare) {
        bare
    } else {
        name
    }
}

/// Whether this may move the stack pointer or go elsewhere in a way that is not
/// understood.
fn is_strange(name: &str) -> bool {
    STRANGE.iter().any(|start| name.starts_with(start)) && !name.starts_with("popcnt")
}

/// An instruction that names all that it writes: last of its operands.
fn with_operands(name: &str, operands: &[&str]) -> Result<Step, String> {
    let Some((&last, others)) = operands.split_last() else {
        return Ok(Step::Plain(Named::Not));
    };
    if last == "%rsp" && !["cmp", "test"].contains(&name) {
        return moves(name, others);
    }
    let copies = ["add", "cmp", "mov", "sub", "test"];
    if others.contains(&"%rsp") && !copies.contains(&name) {
        return Err("it may write to the stack pointer".to_string());
    }
    let named = operands.iter().map(|operand| naming(operand)).max();
    Ok(Step::Plain(named.unwrap_or(Named::Not)))
}

/// An instruction that writes to the stack pointer, without that operand.
fn moves(name: &str, others: &[&str]) -> Result<Step, String> {
    let amount = match (name, others) {
        ("sub", [amount]) => amount.strip_prefix('$').and_then(number),
        ("add", [amount]) => amount.strip_prefix('$').and_then(number).map(|more| -more),
        ("lea", [address]) => address
            .strip_suffix("(%rsp)")
            .and_then(number)
            .map(|more| -more),
        _ => None,
    };
    amount
        .map(Step::Takes)
        .ok_or_else(|| "it moves the stack pointer by what is not a number".to_string())
}

/// How an operand names the stack pointer.
fn naming(operand: &str) -> Named {
    match operand.find("(%rsp") {
        Some(base) if operand[..base].contains('-') => Named::Below,
        Some(_) => Named::AsBase,
        None if operand.contains("%rsp") => Named::AsBase,
        None => Named::Not,
    }
}

/// Whether a word of 8 bytes is pushed: a register, a number or from memory.
fn is_word(operand: &str) -> bool {
    is_word_register(operand) || operand.starts_with('$') || operand.ends_with(')')
}

/// Whether the operand is one of the registers of 8 bytes, and not the stack
/// pointer: `%rax` and its kin, `%r8` to `%r15`.
fn is_word_register(operand: &str) -> bool {
    let Some(name) = operand.strip_prefix("%r") else {
        return false;
    };
    ["ax", "bx", "cx", "dx", "si", "di", "bp"].contains(&name)
        || name
            .parse()
            .is_ok_and(|number: u8| (8..16).contains(&number))
}

/// Where a jump or a call goes. Offsets are printed in hexadecimal.
fn target(operand: &str) -> Result<u64, String> {
    hexadecimal(operand)
        .filter(|_| !operand.is_empty())
        .ok_or_else(|| "where it goes is not known".to_string())
}

/// The names of the registers in an operand.
fn registers(operands: &str) -> impl Iterator<Item = &str> {
    let pieces = operands.split('%').skip(1);
    pieces.filter_map(|piece| {
        piece
            .split(|letter: char| !letter.is_ascii_alphanumeric())
            .next()
    })
}

/// The operands, at the commas outside of parentheses.
fn split_operands(operands: &str) -> Vec<&str> {
    let mut depth = 0;
    let pieces = operands.split(|letter: char| {
        depth += i32::from(letter == '(') - i32::from(letter == ')');
        letter == ',' && depth == 0
    });
    pieces
        .map(str::trim)
        .filter(|operand| !operand.is_empty())
        .collect()
}

/// A number as it stands in an instruction: in hexadecimal after 0x, else in
/// decimal. In hexadecimal a negative one may stand as its two's complement.
fn number(digits: &str) -> Option<i64> {
    let (is_negative, digits) = match digits.strip_prefix('-') {
        Some(digits) => (true, digits),
        None => (false, digits),
    };
    let size = match digits.strip_prefix("0x") {
        Some(digits) => hexadecimal(digits)?.cast_signed(),
        None => digits.parse().ok()?,
    };
    // No instruction moves the stack pointer by more.
    let size = i64::from(i32::try_from(size).ok()?);
    Some(if is_negative { -size } else { size })
}

#[cfg(test)]
mod tests {
    use super::*;

    /// What an instruction does that is understood.
    fn step(text: &str) -> Step {
        read(text).unwrap_or_else(|why| panic!("{text}: {why}"))
    }

    #[test]
    fn what_moves_the_stack_pointer_is_counted() {
        for (text, bytes) in [
            ("push   %rbp", 8),
            ("pushq %r15", 8),
            ("push   $0x4", 8),
            ("push   0x10(%rsp)", 8),
            ("pop    %r12", -8),
            ("popq %rbx", -8),
            ("sub    $0x1000,%rsp", 4096),
            ("subq $1064, %rsp             # imm = 0x428", 1064),
            ("add    $0x68,%rsp", -104),
            ("add    $0xffffffffffffff80,%rsp", 128),
            ("subq $-128, %rsp", -128),
            ("lea    -0x80(%rsp),%rsp", 128),
            ("leaq 16(%rsp), %rsp", -16),
        ] {
            assert_eq!(step(text), Step::Takes(bytes), "{text}");
        }
    }

    #[test]
    fn jumps_and_calls_have_their_targets() {
        assert_eq!(
            step("call   a6 <nodes::write_nodes+0xa6>"),
            Step::Calls(0xa6)
        );
        assert_eq!(step("callq 0xa6 <write+0xa6>"), Step::Calls(0xa6));
        assert_eq!(step("jmp    fc <f+0xfc>"), Step::Jumps(0xfc));
        assert_eq!(step("jne    0 <f>"), Step::MayJump(0));
        assert_eq!(step("jrcxz  5 <f+0x5>"), Step::MayJump(5));
        assert_eq!(step("ret"), Step::Returns);
        assert_eq!(step("retq"), Step::Returns);
        assert_eq!(step("ud2"), Step::Stops);
    }

    #[test]
    fn most_instructions_leave_the_stack_pointer_alone() {
        for (text, named) in [
            ("mov    (%rdi),%rax", Named::Not),
            ("popcnt %rax,%rax", Named::Not),
            ("xchg   %ax,%ax", Named::Not),
            ("nop", Named::Not),
            ("data16 data16 cs nopw 0x0(%rax,%rax,1)", Named::Not),
            ("rep stos %al,%es:(%rdi)", Named::Not),
            ("movaps %xmm0,0x130(%rsp)", Named::AsBase),
            ("lea    (%rsp,%r14,1),%rdi", Named::AsBase),
            ("mov    %rsp,%rdx", Named::AsBase),
            ("cmp    %rax,%rsp", Named::AsBase),
            ("mov    %rax,-0x8(%rsp)", Named::Below),
            ("movzbl -0x80(%rsp,%rcx,1),%eax", Named::Below),
            ("lea    -0x10(%rsp),%rax", Named::Below),
        ] {
            assert_eq!(step(text), Step::Plain(named), "{text}");
        }
    }

    #[test]
    fn fillers_do_nothing() {
        for text in [
            "nop",
            "nopl   0x0(%rax)",
            "data16 data16 cs nopw 0x0(%rax,%rax,1)",
            "nopw %cs:(%rax,%rax)",
            "xchg   %ax,%ax",
            "int3",
        ] {
            assert!(is_filler(text), "{text}");
            assert!(read(text).is_ok(), "{text}");
        }
        for text in ["", "xchg   %ax,%bx", "ret", "push   %rax", "data16"] {
            assert!(!is_filler(text), "{text}");
        }
    }

    /// Instructions that might move the stack pointer, or go anywhere.
    const UNKNOWN: [&str; 37] = [
        "",
        "(bad)",
        ".byte 0xff",
        "sub    %rax,%rsp",
        "sub    0x8(%rdi),%rsp",
        "and    $0xffffffffffffffe0,%rsp",
        "mov    %rbp,%rsp",
        "lea    -0x28(%rbp),%rsp",
        "lea    (%rsp,%rax,1),%rsp",
        "xchg   %rsp,%rax",
        "xchg   %rax,%rsp",
        "inc    %rsp",
        "mov    $0x10,%esp",
        "add    $0x10,%spl",
        "push   %rsp",
        "pop    %rsp",
        "push   %ax",
        "pushw  $0x4",
        "pushf",
        "popf",
        "pop    (%rax)",
        "push   %fs",
        "enter  $0x10,$0x0",
        "leave",
        "ret    $0x8",
        "lret",
        "int    $0x80",
        "syscall",
        "loop   10 <f+0x10>",
        "call   *%rax",
        "call   *0x0(%rip)        # 6 <f+0x6>",
        "jmp    *%rax",
        "jmp    *0x0(,%rax,8)",
        "notrack jmp *%rax",
        "bnd ret",
        "data16 call 5 <f+0x5>",
        "rex.W push %rbp",
    ];

    #[test]
    fn what_is_not_understood_is_refused() {
        for text in UNKNOWN {
            assert!(read(text).is_err(), "{text}: {:?}", read(text));
        }
    }
}
