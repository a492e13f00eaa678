//! The program, on code that was assembled here.
#![cfg(target_arch = "x86_64")]

use std::fs;
use std::path::{Path, PathBuf};
use std::process::{Command, Output};

/// Three calls with frames that are known: one with a frame of two pages, one
/// into the cycle, and one of lists.
const CODE: &str = r#"
        .text
        .globl  book_build
        .type   book_build, @function
book_build:
        pushq   %rbx
        subq    $0x1000, %rsp
        movq    $0, (%rsp)
        subq    $0xf8, %rsp
        leaq    8(%rsp), %rdi
        call    memset@PLT
        addq    $0x10f8, %rsp
        popq    %rbx
        ret
        .size   book_build, . - book_build

        .globl  book_check
        .type   book_check, @function
book_check:
        testq   %rsi, %rsi
        je      1f
        jmp     "inspect::check_node"
1:      ret
        .size   book_check, . - book_check

        .globl  list_head
        .type   list_head, @function
list_head:
        pushq   %rbx
        popq    %rbx
        ret
        .size   list_head, . - list_head

        .section ".text.inspect::check_node","ax",@progbits
        .type   "inspect::check_node", @function
"inspect::check_node":
        pushq   %rbp
        pushq   %rbx
        subq    $24, %rsp
2:      decq    %rdi
        je      3f
        pushq   $0
        pushq   %rdi
        call    "inspect::check_node"
        addq    $16, %rsp
        jmp     2b
3:      addq    $24, %rsp
        popq    %rbx
        popq    %rbp
        ret
        .size   "inspect::check_node", . - "inspect::check_node"
        .section .note.GNU-stack,"",@progbits
"#;

/// Another object: a call into a cycle of the same name, with frames of its own.
const OTHER: &str = r#"
        .text
        .globl  announce_clip
        .type   announce_clip, @function
announce_clip:
        jmp     "inspect::check_node"
        .size   announce_clip, . - announce_clip

        .section ".text.inspect::check_node","ax",@progbits
        .type   "inspect::check_node", @function
"inspect::check_node":
        subq    $72, %rsp
        decq    %rdi
        je      1f
        call    "inspect::check_node"
1:      addq    $72, %rsp
        ret
        .size   "inspect::check_node", . - "inspect::check_node"
        .section .note.GNU-stack,"",@progbits
"#;

/// A header with these numbers.
fn header(build: u64, others: u64) -> String {
    format!(
        "#define MISTROGU_BUILD_STACK {build}\n#define MISTROGU_STACK {others}\n\
         struct mistrogu_answer MISTROGU_CALL(book_build)(void);\n\
         struct mistrogu_answer MISTROGU_CALL(book_check)(void);\n\
         struct mistrogu_head MISTROGU_CALL(list_head)(void);\n"
    )
}

/// Where the files of a test are.
fn folder(test: &str) -> PathBuf {
    let folder = Path::new(env!("CARGO_TARGET_TMPDIR")).join(test);
    fs::create_dir_all(&folder).expect("there is room for files");
    folder
}

/// Runs the program on this code, assembled, and this header.
fn run(test: &str, code: &str, header: &str) -> Output {
    let folder = folder(test);
    let object = assembled(&folder, "code", code);
    let said = folder.join("header.h");
    fs::write(&said, header).expect("the header is written");
    bound(&[&object, &said]).output().expect("the program runs")
}

/// The object of this name with this code.
fn assembled(folder: &Path, name: &str, code: &str) -> PathBuf {
    let [source, object] = ["s", "o"].map(|ending| folder.join(format!("{name}.{ending}")));
    fs::write(&source, code).expect("the code is written");
    let mut assemble = Command::new("cc");
    assemble.arg("-c").arg(&source).arg("-o").arg(&object);
    let status = assemble.status().expect("there is a C compiler");
    assert!(status.success(), "the code is good");
    object
}

/// The program with these words.
fn bound(words: &[&Path]) -> Command {
    let mut program = Command::new(env!("CARGO_BIN_EXE_bound"));
    program.args(words).env_remove("OBJDUMP");
    program
}

/// What it printed, and what it said of errors, when it ended with this status.
fn ended(output: Output, status: i32) -> (String, String) {
    let [out, err] = [output.stdout, output.stderr].map(|bytes| String::from_utf8(bytes).unwrap());
    assert_eq!(output.status.code(), Some(status), "{out}{err}");
    (out, err)
}

#[test]
fn known_frames_are_added_up() {
    let (page, errors) = ended(run("known", CODE, &header(4400, 12_900)), 0);
    for line in [
        "| `book_build` | 4,368 | `book_build` 4,360, `memset` 8 |",
        "| `book_check` | 12,800 | `book_check` 0, 200 times `inspect::check_node` 64 |",
        "| `list_head` | 16 | `list_head` 16 |",
        "The cycle of `code.o` is `inspect::check_node`: 64 bytes a level, and at most 200 levels, as is proved.",
        "| `code.o` | `book_build` | 4,360 |\n| `code.o` | `book_check` | 8 |\n| `code.o` | `inspect::check_node` | 64 |\n",
    ] {
        assert!(page.contains(line), "{page}");
    }
    assert_eq!(errors, "");
}

#[test]
fn of_two_objects_in_an_archive_each_has_its_own_inner_functions() {
    let folder = folder("two");
    let objects = [("book", CODE), ("announcer", OTHER)];
    let objects = objects.map(|(name, code)| assembled(&folder, name, code));
    let [archive, said] = ["libboth.a", "header.h"].map(|name| folder.join(name));
    let _ = fs::remove_file(&archive);
    let mut together = Command::new("ar");
    together.arg("rcs").arg(&archive).args(objects);
    let status = together.status().expect("there is an ar");
    assert!(status.success(), "the archive is made");
    let other = "struct mistrogu_answer MISTROGU_CALL(announce_clip)(void);\n";
    for (header, status) in [
        (header(4400, 16_100) + other, 0),
        (header(4400, 16_100), 1),
        (header(4400, 12_900) + other, 1),
    ] {
        fs::write(&said, &header).expect("the header is written");
        let output = bound(&[&archive, &said]).output();
        let (page, errors) = ended(output.expect("the program runs"), status);
        for line in [
            "| `announce_clip` | 16,000 | `announce_clip` 0, 200 times `inspect::check_node` 80 |",
            "| `book_check` | 12,800 | `book_check` 0, 200 times `inspect::check_node` 64 |",
            "The cycle of `book.o` is `inspect::check_node`: 64 bytes a level",
            "The cycle of `announcer.o` is `inspect::check_node`: 80 bytes a level",
        ] {
            assert!(page.contains(line), "{page}");
        }
        assert_eq!(errors.contains("announce_clip"), status == 1, "{errors}");
    }
}

#[test]
fn a_number_that_is_too_small_is_told_after_the_page() {
    let (page, errors) = ended(run("small", CODE, &header(4400, 12_792)), 1);
    assert!(page.contains("| `book_check` | 12,800 |"), "{page}");
    let sentence =
        "bound: book_check can take 12,800 bytes of stack, and MISTROGU_STACK is 12,792\n";
    assert_eq!(errors, sentence);
}

#[test]
fn code_that_is_not_understood_gets_no_figure() {
    for (test, known, strange, why) in [
        (
            "variable",
            "subq    $0xf8, %rsp",
            "subq %rsi, %rsp",
            "book_build: at ",
        ),
        (
            "register",
            "call    memset@PLT",
            "call *%rax",
            "book_build: at ",
        ),
        (
            "missing",
            "call    memset@PLT",
            "call abort@PLT",
            "asks for abort",
        ),
        (
            "cycle",
            "call    memset@PLT",
            "call book_build",
            "by itself",
        ),
    ] {
        let code = CODE.replace(known, strange);
        let (page, errors) = ended(run(test, &code, &header(4400, 12_900)), 1);
        assert_eq!(page, "");
        assert!(errors.contains(why), "{errors}");
    }
}

#[test]
fn what_is_missing_is_told() {
    let folder = folder("without");
    let [archive, said] = ["code.a", "header.h"].map(|name| folder.join(name));
    let _ = fs::remove_file(&archive);
    let run = |command: &mut Command| ended(command.output().expect("the program runs"), 1).1;
    assert!(run(&mut bound(&[])).contains("bound ARCHIVE HEADER"));
    assert!(run(&mut bound(&[&archive, &said])).contains("no such file"));
    fs::write(&archive, "no archive").expect("the file is written");
    assert!(run(&mut bound(&[&archive, &said])).contains("no objdump reads elf64-x86-64"));
    let other = run(bound(&[&archive, &said]).env("OBJDUMP", "no-such-program"));
    assert!(other.contains("no-such-program: "), "{other}");
}
