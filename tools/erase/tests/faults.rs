//! What no rule knows is an error with its file and line.
use erase::erase;
use erase::text::Text;

fn fault(source: &str) -> String {
    let text = Text::new("a.rt", "base", false, source);
    let result = text.and_then(|mut text| erase(&mut text));
    result.map(|_| ()).unwrap_err().to_string()
}

#[test]
fn a_ghost_text_outside_of_clauses() {
    assert_eq!(fault("fn f() {\n    x ≡ y\n}"), "a.rt:2: no token begins with '≡': a ghost text that is in no clause?");
}

#[test]
fn a_keyword_without_its_clause() {
    assert_eq!(fault("fn f()\n    ensures; {}"), "a.rt:2: `ensures` without a clause");
    assert_eq!(fault("fn f()\n    requires few x\n{}"), "a.rt:2: `requires` without a clause");
}

#[test]
fn what_does_not_end() {
    assert_eq!(fault("\nghost x = { 1"), "a.rt:2: a brace is not closed");
    assert_eq!(fault("fn f()\n    ensures\n{}"), "a.rt:1: a function without a body");
    assert_eq!(fault("ghost x = 1"), "a.rt:1: a ghost item does not end");
    assert_eq!(fault("fn f() {}\n\"abc"), "a.rt:2: a string or a character does not end");
    assert_eq!(fault("/// ```rattle\n/// f();\nfn f() {}"), "a.rt:1: an example does not end");
}

#[test]
fn words_that_no_rule_removes() {
    for (source, word) in [
        ("impl Drop for S { fn drop(self) { close(self); } }", "Drop"),
        ("impl Model for S { fn f() {} }", "Model"),
        ("unsafe fn f() {}", "unsafe"),
        ("#[tactic]\nfn f() {}", "tactic"),
        ("impl DerefSlice<u8> for S {}\nfn final_() { final }", "final"),
        ("fn f(rt: HostRuntime) { println!(rt; \"x\"); }", "rt"),
        ("fn f() { let x = vec![in alloc]; }", "in"),
    ] {
        assert_eq!(fault(source).split('`').nth(1), Some(word), "{source}");
    }
}
