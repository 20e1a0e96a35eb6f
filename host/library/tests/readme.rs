//! What the README shows is what there is.

mod common;

/// The first block of the README in a language.
fn block(language: &str) -> String {
    block_of("README.md", language)
}

/// The first block of a page in a language.
fn block_of(page: &str, language: &str) -> String {
    let text = std::fs::read_to_string(common::repository().join(page));
    let text = text.unwrap_or_else(|error| panic!("{page}: {error}"));
    let (_, behind) = text
        .split_once(&format!("```{language}\n"))
        .unwrap_or_else(|| panic!("{page} shows no {language}"));
    let (block, _) = behind.split_once("```").expect("the block ends");
    block.to_string()
}

/// The example in the header's first comment.
fn header_block() -> String {
    let header = std::fs::read_to_string(common::repository().join("include/benzokamuri.h"));
    let header = header.expect("there is a header");
    let shown = header
        .lines()
        .skip_while(|line| !line.starts_with(" *   "))
        .take_while(|line| line.starts_with(" *   ") || *line == " *")
        .filter_map(|line| line.strip_prefix(" *   "));
    shown.collect::<Vec<_>>().join("\n")
}

/// Compiles what stands in a function as it would in a program, and runs it:
/// its log-in has to be accepted.
fn log_in_is_accepted_and_lifted(shown: &str, name: &str) {
    let (includes, rest): (Vec<&str>, Vec<&str>) =
        shown.lines().partition(|line| line.starts_with("#include"));
    let program = format!(
        "{}\n#include <stdio.h>\nint main(void) {{\n{}\n\
         printf(\"%d, %d; lifted %d\\n\", answer.a, answer.h, session.lifted);\nreturn 0;\n}}\n",
        includes.join("\n"),
        rest.join("\n")
    );
    let path = std::path::Path::new(env!("CARGO_TARGET_TMPDIR")).join(name);
    std::fs::write(&path, program).expect("it can be written");
    let path = path.to_str().expect("a path that is text");
    assert_eq!(common::compile(path).run(), "0, 0; lifted 1\n");
}

#[test]
fn the_c_is_compiled_and_accepted() {
    log_in_is_accepted_and_lifted(&block("c"), "readme.c");
}

#[test]
fn the_c_of_the_header_is_compiled_and_accepted() {
    let includes = "#include <string.h>\n#include \"benzokamuri.h\"\n";
    log_in_is_accepted_and_lifted(&format!("{includes}{}", header_block()), "header.c");
}

/// The library's first page is compiled and run by its own test.
#[test]
fn the_rust_is_that_of_the_first_page() {
    let page = include_str!("../src/lib.rs");
    let shown: Vec<String> = page
        .lines()
        .filter_map(|line| line.strip_prefix("//! ").or(line.strip_prefix("//!")))
        .skip_while(|line| *line != "```")
        .skip(1)
        .take_while(|line| *line != "```")
        .filter(|line| !line.starts_with("# "))
        .map(String::from)
        .collect();
    let readme = block("rust");
    assert_eq!(readme.lines().collect::<Vec<_>>(), shown);
}

/// The C of the workshop's page, on an empty disk, where there is no book.
#[test]
fn the_c_of_the_picker_is_compiled_and_answered() {
    let program = format!(
        "#include <stdio.h>\n#include <string.h>\n#include \"benzokamuri.h\"\n\
         static uint8_t image[BENZO_IMAGE_LEN];\n\
         static uint16_t map[BENZO_MAP_LEN] = {{1, 1}};\n\
         int main(void) {{\nbenzo_session session = {{0}};\nmemset(image, 0xE5, sizeof image);\n{}\n\
         printf(\"%d, %d; lifted %d\\n\", picked.number, picked.given, session.lifted);\n\
         return 0;\n}}\n",
        block_of("docs/PICKER.md", "c")
    );
    let path = std::path::Path::new(env!("CARGO_TARGET_TMPDIR")).join("picker.c");
    std::fs::write(&path, program).expect("it can be written");
    let path = path.to_str().expect("a path that is text");
    assert_eq!(common::compile(path).run(), "3, 0; lifted 0\n");
}

/// The Rust of the workshop's page is that of `Disk::pick`, which is compiled
/// and run by its own test.
#[test]
fn the_rust_of_the_picker_is_that_of_its_function() {
    let source = include_str!("../src/disk.rs");
    let shown = block_of("docs/PICKER.md", "rust");
    let lines: String = shown
        .lines()
        .map(|line| format!("    /// {line}\n"))
        .collect();
    assert!(source.contains(&lines), "{lines}");
}
