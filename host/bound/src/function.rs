//! All functions of an archive, and which of them each call enters.

use crate::frame::{frame, Destination};
use crate::object::{Object, Symbol};
use std::collections::BTreeMap;

/// What the archive may ask of the guest.
pub const OUTSIDE: [&str; 2] = ["memcpy", "memset"];

/// A function.
#[derive(Debug)]
pub struct Function {
    /// Its name.
    pub name: String,
    /// The name of the object that it stands in. Another object may have a function
    /// of the same name, if guests can call neither.
    pub object: String,
    /// Whether the guest can call it.
    pub is_exported: bool,
    /// How many bytes its frame has where it is deepest.
    pub peak: u64,
    /// The functions that it calls or jumps to.
    pub calls: Vec<Call>,
}

/// A call, or a jump to another function.
#[derive(Debug)]
pub struct Call {
    /// What is called.
    pub callee: Callee,
    /// How many bytes the caller's frame has meanwhile.
    pub held: u64,
}

/// What is called.
#[derive(Clone, Debug, PartialEq, Eq)]
pub enum Callee {
    /// The function of this number.
    Inside(usize),
    /// A function of the guest.
    Outside(String),
}

/// Where a function begins: the number of its object, the section, the offset.
type Place<'a> = (usize, &'a str, u64);

/// Where everything is.
struct Names<'a> {
    /// The objects.
    objects: &'a [Object],
    /// The numbers of the functions, by where they begin.
    functions: BTreeMap<Place<'a>, usize>,
    /// Where the symbols are that other objects see.
    global: BTreeMap<&'a str, Place<'a>>,
}

/// The functions of an archive, in the order of its symbols.
pub fn functions(objects: &[Object]) -> Result<Vec<Function>, String> {
    let names = Names::of(objects)?;
    let mut functions = Vec::new();
    for (object, symbol, section) in named_functions(objects) {
        let place = (object, section, symbol.offset);
        let function = read(&names, place, symbol);
        functions.push(function.map_err(|why| format!("{}: {why}", symbol.name))?);
    }
    Ok(functions)
}

/// Every symbol that is a function, with the number of its object and with its
/// section.
fn named_functions(objects: &[Object]) -> impl Iterator<Item = (usize, &Symbol, &str)> {
    objects.iter().enumerate().flat_map(|(number, object)| {
        let functions = object.symbols.iter().filter(|symbol| symbol.is_function);
        functions.filter_map(move |symbol| Some((number, symbol, symbol.section.as_deref()?)))
    })
}

/// Reads a function.
fn read(names: &Names, place: Place, symbol: &Symbol) -> Result<Function, String> {
    let (object, section, offset) = place;
    let code = names.objects[object].sections.get(section);
    let code = code.ok_or_else(|| format!("its section {section} has no code"))?;
    let frame = frame(code, offset, symbol.size)?;
    let mut calls = Vec::new();
    for exit in frame.exits {
        let callee = names.callee((object, section), &exit.to)?;
        let held = exit.held;
        calls.push(Call { callee, held });
    }
    Ok(Function {
        name: symbol.name.clone(),
        object: names.objects[object].name.clone(),
        is_exported: symbol.is_global,
        peak: frame.peak,
        calls,
    })
}

impl<'a> Names<'a> {
    /// Finds everything. A symbol that only the guest can have, and is not one
    /// of those that it is asked for, is an error, and so are two symbols of one
    /// name that other objects see.
    fn of(objects: &'a [Object]) -> Result<Names<'a>, String> {
        let mut names = Names {
            objects,
            functions: BTreeMap::new(),
            global: BTreeMap::new(),
        };
        for (number, (object, symbol, section)) in named_functions(objects).enumerate() {
            // Of two names for one function the first is used.
            let place = (object, section, symbol.offset);
            names.functions.entry(place).or_insert(number);
        }
        for (number, object) in objects.iter().enumerate() {
            for symbol in object.symbols.iter().filter(|symbol| symbol.is_global) {
                let section = symbol.section.as_deref();
                let place = section.map(|section| (number, section, symbol.offset));
                let is_double = place.and_then(|place| names.global.insert(&symbol.name, place));
                if is_double.is_some() {
                    return Err(format!("two objects have {}", symbol.name));
                }
            }
        }
        names.only_known_are_missing()?;
        Ok(names)
    }

    /// An error where a function is asked of the guest that it need not have.
    fn only_known_are_missing(&self) -> Result<(), String> {
        let symbols = self.objects.iter().flat_map(|object| &object.symbols);
        let asked = symbols.filter(|symbol| symbol.section.is_none());
        let mut missing = asked.filter(|symbol| !self.global.contains_key(&*symbol.name));
        match missing.find(|symbol| !OUTSIDE.contains(&&*symbol.name)) {
            None => Ok(()),
            Some(symbol) => Err(format!(
                "the archive asks for {}, and only {} are the guest's",
                symbol.name,
                OUTSIDE.join(" and ")
            )),
        }
    }

    /// What is called from a section.
    fn callee(&self, from: (usize, &str), to: &Destination) -> Result<Callee, String> {
        let (object, own) = from;
        let (place, behind) = match to {
            Destination::Offset(offset) => ((object, own, *offset), 0),
            Destination::Behind(name, behind) => match self.place(object, name)? {
                Some(place) => (place, *behind),
                None if *behind == 0 && OUTSIDE.contains(&&**name) => {
                    return Ok(Callee::Outside(name.clone()));
                }
                None => return Err(format!("it calls {name}, which is not there")),
            },
        };
        let (object, section, offset) = place;
        let start = offset.checked_add_signed(behind);
        let number = start.and_then(|start| self.functions.get(&(object, section, start)));
        let inside = number.map(|&number| Callee::Inside(number));
        inside.ok_or_else(|| format!("it goes to {to:?}, where no function begins"))
    }

    /// Where a symbol, or the section of that name, is for an object: in itself,
    /// else in another one. Two of one name in the object are an error, since a
    /// relocation tells nothing else.
    fn place(&self, object: usize, name: &str) -> Result<Option<Place<'a>>, String> {
        let objects: &'a [Object] = self.objects;
        let symbols = objects[object].symbols.iter();
        let mut places = symbols
            .filter(|symbol| symbol.name == name)
            .filter_map(|symbol| {
                let section = symbol.section.as_deref()?;
                Some((object, section, symbol.offset))
            });
        match (places.next(), places.next()) {
            (Some(_), Some(_)) => Err(format!("it calls {name}, and there are two")),
            (Some(place), None) => Ok(Some(place)),
            (None, _) => Ok(self.global.get(name).copied()),
        }
    }
}

#[cfg(test)]
mod tests {
    use super::*;
    use crate::object;

    /// The symbols of an object with three functions.
    const SYMBOLS: &str = "a.o:     file format elf64-x86-64
SYMBOL TABLE:
0000000000000000 l    d  .text.in\t0000000000000000 .text.in
0000000000000000 l     F .text.in\t0000000000000010 in::first
0000000000000010 l     F .text.in\t0000000000000010 in::second
0000000000000000 g     F .text.book_check\t0000000000000020 book_check
0000000000000000         *UND*\t0000000000000000 memcpy
";

    /// The code of the first two.
    const INNER: &str = "Disassembly of section .text.in:
   0:\tpush   %rbx
   1:\tcall   10 <in::second>
   6:\tpop    %rbx
   7:\tret
  10:\tjmp    15 <in::second+0x5>
\t\t\t11: R_X86_64_PLT32\tmemcpy-0x4
";

    /// The functions of that object, whose third makes this call.
    fn found(symbols: &str, call: &str) -> Result<Vec<Function>, String> {
        let outer = format!(
            "Disassembly of section .text.book_check:
   0:\tsub    $0x8,%rsp
{call}
   9:\tadd    $0x8,%rsp
   d:\tret
"
        );
        functions(&object::read(&format!("{symbols}{INNER}{outer}")).unwrap())
    }

    /// That call, with its relocation.
    fn call(relocation: &str) -> String {
        format!("   4:\tcall   9 <book_check+0x9>\n\t\t\t5: R_X86_64_PLT32\t{relocation}")
    }

    #[test]
    fn calls_are_found_by_offset_by_symbol_and_by_section() {
        for (relocation, number) in [
            (".text.in-0x4", 0),
            (".text.in+0xc", 1),
            ("in::second-0x4", 1),
            ("in::first+0xc", 1),
            ("book_check-0x4", 2),
        ] {
            let functions = found(SYMBOLS, &call(relocation)).unwrap();
            let [first, second, third] = &functions[..] else {
                panic!("three functions")
            };
            assert_eq!((first.peak, first.calls[0].held), (16, 16));
            assert_eq!(first.calls[0].callee, Callee::Inside(1));
            let outside = Callee::Outside("memcpy".to_string());
            assert_eq!((&second.calls[0].callee, second.peak), (&outside, 8));
            assert!(third.is_exported && !first.is_exported);
            assert_eq!(third.calls[0].callee, Callee::Inside(number));
            assert_eq!(third.calls[0].held, 16);
        }
    }

    #[test]
    fn a_call_that_enters_no_function_is_refused() {
        for (relocation, why) in [
            (".text.in-0x2", "no function begins"),
            ("memcpy+0x4", "not there"),
            ("strange-0x4", "not there"),
        ] {
            let error = found(SYMBOLS, &call(relocation)).unwrap_err();
            assert!(error.contains(why), "{error}");
            assert!(error.starts_with("book_check: "), "{error}");
        }
    }

    #[test]
    fn a_call_by_a_name_that_two_have_is_refused() {
        let second = "0000000000000010 l     F .text.in\t0000000000000010 in::first\n";
        let error = found(&format!("{SYMBOLS}{second}"), &call("in::first-0x4")).unwrap_err();
        assert!(error.contains("there are two"), "{error}");
    }

    #[test]
    fn only_memcpy_and_memset_may_be_missing() {
        let asks = "0000000000000000         *UND*\t0000000000000000 abort\n";
        let error = found(&format!("{SYMBOLS}{asks}"), &call("memcpy-0x4")).unwrap_err();
        assert!(error.contains("asks for abort"), "{error}");
    }

    /// An object of this name with a call and an inner function, whose frame has so
    /// many bytes; the inner one has the same name everywhere.
    fn with_inner(object: &str, call: &str, bytes: usize) -> String {
        format!(
            "{object}:     file format elf64-x86-64
SYMBOL TABLE:
0000000000000000 l     F .text.in::first\t0000000000000010 in::first
0000000000000000 g     F .text.{call}\t0000000000000010 {call}
Disassembly of section .text.in::first:
   0:\tsub    ${bytes:#x},%rsp
   4:\tadd    ${bytes:#x},%rsp
   8:\tret
Disassembly of section .text.{call}:
   0:\tcall   5 <{call}+0x5>
\t\t\t1: R_X86_64_PLT32\tin::first-0x4
   5:\tret
"
        )
    }

    #[test]
    fn an_inner_function_is_that_of_its_own_object() {
        let objects = [
            ("book.o", "book_check", 8),
            ("announcer.o", "announce_clip", 16),
        ];
        let text = objects.map(|(object, call, bytes)| with_inner(object, call, bytes));
        let functions = functions(&object::read(&text.concat()).unwrap()).unwrap();
        for (number, (object, call, bytes)) in objects.into_iter().enumerate() {
            let [inner, outer] = &functions[2 * number..][..2] else {
                panic!("two functions of each")
            };
            assert_eq!((&*inner.name, &*inner.object), ("in::first", object));
            assert_eq!((&*outer.name, &*outer.object), (call, object));
            assert_eq!(outer.calls[0].callee, Callee::Inside(2 * number));
            assert_eq!(inner.peak, 8 + bytes as u64);
        }
    }

    #[test]
    fn objects_call_each_other_by_symbols_that_others_see() {
        let other = "b.o:     file format elf64-x86-64
SYMBOL TABLE:
0000000000000000 l     F .text\t0000000000000010 in::first
0000000000000000         *UND*\t0000000000000000 book_check
Disassembly of section .text:
   0:\tcall   5 <in::first+0x5>
\t\t\t1: R_X86_64_PLT32\tbook_check-0x4
   5:\tret
";
        let outer = "Disassembly of section .text.book_check:\n   0:\tret\n";
        let text = format!("{SYMBOLS}{INNER}{outer}{other}");
        let functions = functions(&object::read(&text).unwrap()).unwrap();
        assert_eq!(functions[3].name, "in::first");
        assert_eq!(functions[3].calls[0].callee, Callee::Inside(2));
        let twice = format!("{SYMBOLS}{INNER}{outer}{SYMBOLS}{INNER}{outer}");
        let error = super::functions(&object::read(&twice).unwrap()).unwrap_err();
        assert!(error.contains("two objects have book_check"), "{error}");
    }
}
