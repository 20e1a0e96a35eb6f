//! The C examples, compiled, run, and compared with what must come out.

mod common;

/// What the program of `examples/c/hello.c` has to print.
const HELLO: &str = "\
13 log in           0, 0
22 make             0, 0
21 write            0, 0
16 close            0, 0
15 open             0, 0
20 read             0, 0
Hello from a diskette!
20 read past end    1, 0
46 space            0, 0
1920 records are free
22 make, protected  255, 2
";

/// What the program of `examples/c/lengths.c` has to print.
const LENGTHS: &str = "479 calls, 444 of them refused for a length\n";

/// What the program of `examples/c/pick.c` has to print.
const PICK: &str = "\
02:30, summer time: answer 0, picked and logged
    the word of day 297
02:30, winter time: answer 1, picked again
    the word of day 297
records of the log: 1
    02026 297
";

/// The memory checker's words.
const MEMCHECK: [&str; 4] = [
    "--quiet",
    "--error-exitcode=99",
    "--leak-check=full",
    "--errors-for-leak-kinds=all",
];

#[test]
fn hello() {
    let hello = common::compile("examples/c/hello.c");
    assert_eq!(hello.run(), HELLO);
    check_memory(&hello, HELLO);
}

#[test]
fn every_length_wrong_in_turn() {
    let lengths = common::compile("examples/c/lengths.c");
    assert_eq!(lengths.run(), LENGTHS);
    check_memory(&lengths, LENGTHS);
}

#[test]
fn the_night_the_clocks_go_back() {
    let pick = common::compile("examples/c/pick.c");
    assert_eq!(pick.run(), PICK);
    check_memory(&pick, PICK);
}

fn check_memory(program: &common::Compiled, expected: &str) {
    match program.run_under("valgrind", &MEMCHECK) {
        Some(printed) => assert_eq!(printed, expected),
        None => println!("skipped: valgrind is not there, so memory is not checked"),
    }
}

/// The header is fit for C++ too.
#[test]
fn the_header_compiles_as_cpp() {
    let header = common::repository().join("include/benzokamuri.h");
    let compiled = std::process::Command::new("c++")
        .args(["-x", "c++", "-std=c++11", "-Wall", "-Wextra", "-Werror"])
        .arg("-fsyntax-only")
        .arg(header)
        .output();
    match compiled {
        Ok(output) => {
            let errors = String::from_utf8_lossy(&output.stderr);
            assert!(output.status.success(), "{errors}");
        }
        Err(_) => println!("skipped: c++ is not there"),
    }
}
