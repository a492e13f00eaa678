//! What objdump says of an archive: symbols, instructions, relocations.
//!
//! Both GNU's objdump and LLVM's are understood. A line that is not is an error:
//! it might be an instruction.

use std::collections::BTreeMap;

/// The only kind of object that is read.
pub const FORMAT: &str = "elf64-x86-64";

/// A file in the archive.
#[derive(Debug, Default)]
pub struct Object {
    /// Its name, without the archive's and without folders.
    pub name: String,
    /// Its symbols.
    pub symbols: Vec<Symbol>,
    /// Its code, by the names of the sections.
    pub sections: BTreeMap<String, Code>,
}

/// The code of a section: each instruction at its offset.
pub type Code = BTreeMap<u64, Instruction>;

/// A symbol of an object.
#[derive(Clone, Debug, PartialEq, Eq)]
pub struct Symbol {
    /// Its name.
    pub name: String,
    /// The section that it stands in; none where the object only asks for it.
    pub section: Option<String>,
    /// Where it stands there.
    pub offset: u64,
    /// How many bytes it has.
    pub size: u64,
    /// Whether other objects see it.
    pub is_global: bool,
    /// Whether it is a function.
    pub is_function: bool,
}

/// An instruction.
#[derive(Clone, Debug, Default, PartialEq, Eq)]
pub struct Instruction {
    /// It and its operands, as they are printed.
    pub text: String,
    /// What the linker puts into it.
    pub relocations: Vec<Relocation>,
}

/// An address that the linker puts into an instruction.
#[derive(Clone, Debug, PartialEq, Eq)]
pub struct Relocation {
    /// Its kind.
    pub kind: String,
    /// The symbol or section that it goes by.
    pub symbol: String,
    /// What is added.
    pub addend: i64,
}

/// What the lines at hand are about.
enum Part {
    /// Nothing that is read.
    Head,
    /// Symbols.
    Symbols,
    /// The code of this section.
    Section(String),
}

/// Reads all that `objdump -t -d -r -z --no-show-raw-insn` prints.
pub fn read(text: &str) -> Result<Vec<Object>, String> {
    let mut objects: Vec<Object> = Vec::new();
    let mut part = Part::Head;
    for line in text.lines().filter(|line| !line.trim().is_empty()) {
        if let Some((file, format)) = line.split_once("file format ") {
            if format.trim() != FORMAT {
                return Err(format!("the archive has code of {format}, not of {FORMAT}"));
            }
            objects.push(Object {
                name: name_of(file).to_string(),
                ..Object::default()
            });
            part = Part::Head;
        } else if line == "SYMBOL TABLE:" {
            part = Part::Symbols;
        } else if let Some(section) = section_head(line) {
            part = Part::Section(section.to_string());
        } else if let Some(object) = objects.last_mut() {
            read_line(object, &part, line)
                .map_err(|why| format!("objdump's line {line:?} is not understood: {why}"))?;
        }
    }
    Ok(objects)
}

/// The name of an object that is called `NAME:`, `FOLDER/NAME:` or `ARCHIVE(NAME):`.
fn name_of(file: &str) -> &str {
    let file = file.trim().trim_end_matches(':').trim_end_matches(')');
    file.rsplit(['/', '(']).next().unwrap_or(file)
}

/// The section whose code begins behind this line.
fn section_head(line: &str) -> Option<&str> {
    line.strip_prefix("Disassembly of section ")?
        .strip_suffix(':')
}

/// Reads one line into the object.
fn read_line(object: &mut Object, part: &Part, line: &str) -> Result<(), String> {
    match part {
        Part::Head => Err("it stands before all symbols and code".to_string()),
        Part::Symbols if line == "no symbols" => Ok(()),
        Part::Symbols => {
            let symbol = symbol(line).ok_or("it is no symbol")?;
            object.symbols.push(symbol?);
            Ok(())
        }
        Part::Section(section) => {
            let code = object.sections.entry(section.clone()).or_default();
            read_code(code, line)
        }
    }
}

/// A symbol. Its line has fixed columns up to the section, then a tab, its size
/// and its name. One that the linker or the loader may replace is an error.
fn symbol(line: &str) -> Option<Result<Symbol, String>> {
    let (place, rest) = line.split_once('\t')?;
    let (size, name) = rest.split_once(' ')?;
    let hidden = [".hidden ", ".internal ", ".protected "];
    let name = hidden
        .iter()
        .find_map(|mark| name.strip_prefix(mark))
        .unwrap_or(name);
    let flags = place.get(17..24)?.as_bytes();
    let section = place.get(25..)?;
    if flags[1] == b'w' || flags[4] == b'i' || flags[0] == b'u' {
        return Some(Err(format!("{name} may be replaced")));
    }
    Some(Ok(Symbol {
        name: name.to_string(),
        section: (section != "*UND*").then(|| section.to_string()),
        offset: hexadecimal(place.get(..16)?)?,
        size: hexadecimal(size)?,
        is_global: flags[0] == b'g',
        is_function: flags[6] == b'F',
    }))
}

/// Reads a line of code: an instruction, a relocation of the one before it, or
/// the name of what begins there.
fn read_code(code: &mut Code, line: &str) -> Result<(), String> {
    if line.ends_with(">:") {
        return Ok(());
    }
    let (offset, text) = line.trim_start().split_once(':').ok_or("it has no colon")?;
    let offset = hexadecimal(offset).ok_or("it has no offset")?;
    let text = text.trim();
    if text.starts_with("R_") {
        let relocation = relocation(text).ok_or("it is no relocation")?;
        let mut before = code.range_mut(..=offset);
        let (_, instruction) = before.next_back().ok_or("no instruction is before it")?;
        instruction.relocations.push(relocation);
        return Ok(());
    }
    let instruction = Instruction {
        text: text.replace('\t', " "),
        relocations: Vec::new(),
    };
    match code.insert(offset, instruction) {
        None => Ok(()),
        Some(_) => Err("the section has two instructions there".to_string()),
    }
}

/// A relocation: its kind, then a symbol or section with what is added.
fn relocation(text: &str) -> Option<Relocation> {
    let (kind, value) = text.split_once([' ', '\t'])?;
    let value = value.trim();
    let (symbol, addend) = match value.rfind(['+', '-']) {
        Some(sign) if value[sign + 1..].starts_with("0x") => {
            let amount = i64::try_from(hexadecimal(&value[sign + 1..])?).ok()?;
            let is_less = value[sign..].starts_with('-');
            (&value[..sign], if is_less { -amount } else { amount })
        }
        _ => (value, 0),
    };
    Some(Relocation {
        kind: kind.to_string(),
        symbol: symbol.to_string(),
        addend,
    })
}

/// A number in hexadecimal digits, with 0x before them or without.
pub fn hexadecimal(digits: &str) -> Option<u64> {
    let digits = digits.strip_prefix("0x").unwrap_or(digits);
    let are_digits = digits.bytes().all(|digit| digit.is_ascii_hexdigit());
    are_digits.then(|| u64::from_str_radix(digits, 16).ok())?
}

#[cfg(test)]
mod tests {
    use super::*;

    /// As GNU's prints it.
    const GNU: &str = "In archive libmistrogu.a:

book.o:     file format elf64-x86-64

SYMBOL TABLE:
0000000000000000 l    df *ABS*\t0000000000000000 rattle
0000000000000000 l    d  .text.nodes::write\t0000000000000000 .text.nodes::write
0000000000000000 l     F .text.nodes::write\t000000000000000c nodes::write
0000000000000000         *UND*\t0000000000000000 memset
0000000000000010 g     F .text.book_build\t0000000000000025 .hidden book_build


Disassembly of section .text.nodes::write:

0000000000000000 <nodes::write>:
   0:\tpush   %rbp
   1:\tsub    $0x428,%rsp
   8:\tcall   d <nodes::write+0xd>
\t\t\t9: R_X86_64_PLT32\tmemset-0x4
   d:\tcall   12 <nodes::write+0x12>
\t\t\te: R_X86_64_PLT32\t.text.names-of+0x1c
";

    /// As LLVM's prints it.
    const LLVM: &str = "
libmistrogu.a(book.o):\tfile format elf64-x86-64

SYMBOL TABLE:
0000000000000000         *UND*\t0000000000000000 memset

Disassembly of section .text:

0000000000000000 <write>:
       1:      \tsubq\t$1064, %rsp             # imm = 0x428
       8:      \tcallq\t0xd <write+0xd>
\t\t0000000000000009:  R_X86_64_PLT32\tmemset-0x4
";

    #[test]
    fn symbols_have_their_section_size_and_kind() {
        let objects = read(GNU).unwrap();
        let [object] = &objects[..] else {
            panic!("one object")
        };
        assert_eq!(object.name, "book.o");
        let symbols: Vec<_> = object.symbols.iter().skip(2).collect();
        assert_eq!(symbols[0].name, "nodes::write");
        assert_eq!(symbols[0].section.as_deref(), Some(".text.nodes::write"));
        assert_eq!((symbols[0].offset, symbols[0].size), (0, 12));
        assert!(symbols[0].is_function && !symbols[0].is_global);
        assert_eq!((&*symbols[1].name, &symbols[1].section), ("memset", &None));
        assert_eq!((&*symbols[2].name, symbols[2].offset), ("book_build", 16));
        assert!(symbols[2].is_function && symbols[2].is_global);
    }

    #[test]
    fn instructions_have_their_offsets_and_relocations() {
        let objects = read(GNU).unwrap();
        let code = &objects[0].sections[".text.nodes::write"];
        assert_eq!(code.keys().copied().collect::<Vec<_>>(), [0, 1, 8, 13]);
        assert_eq!(code[&1].text, "sub    $0x428,%rsp");
        let relocation = |symbol: &str, addend| Relocation {
            kind: "R_X86_64_PLT32".to_string(),
            symbol: symbol.to_string(),
            addend,
        };
        assert_eq!(code[&8].relocations, [relocation("memset", -4)]);
        assert_eq!(code[&13].relocations, [relocation(".text.names-of", 28)]);
    }

    #[test]
    fn llvm_is_understood_too() {
        let objects = read(LLVM).unwrap();
        assert_eq!(objects[0].name, "book.o");
        let code = &objects[0].sections[".text"];
        assert_eq!(code[&1].text, "subq $1064, %rsp             # imm = 0x428");
        assert_eq!(code[&8].relocations[0].symbol, "memset");
    }

    #[test]
    fn an_object_is_called_by_its_own_name() {
        for file in ["a.o:", "in/a.o:     ", "lib.a(a.o):\t", "/in/lib.a(a.o):"] {
            assert_eq!(name_of(file), "a.o");
        }
    }

    #[test]
    fn what_is_not_understood_is_an_error() {
        let head = "book.o:     file format elf64-x86-64\n";
        let code = "Disassembly of section .text:\n";
        for (text, why) in [
            ("a.o:     file format elf64-littleaarch64\n", "not of elf64"),
            (&format!("{head}strange\n"), "before all"),
            (&format!("{head}SYMBOL TABLE:\nstrange\n"), "no symbol"),
            (&format!("{head}{code}\t...\n"), "no colon"),
            (&format!("{head}{code}   x:\tnop\n"), "no offset"),
            (&format!("{head}{code}   0:\tnop\n   0:\tnop\n"), "two"),
            (
                &format!(
                    "{head}SYMBOL TABLE:\n0000000000000000  w    F .text\t0000000000000001 f\n"
                ),
                "replaced",
            ),
        ] {
            let error = read(text).unwrap_err();
            assert!(error.contains(why), "{text}: {error}");
        }
    }
}
