"""Test the result of the eraser for every form, and its refusals by name."""
from unittest import mock

import pytest

from rattle.lexer import Kind, tokens
from rust import eraser, names
from rust.crates import ROOT, listed
from rust.edits import Edit, Refused, applied
from rust.eraser import edits_of, macros_of, plain

PRELUDE = names.PRELUDE

# Sources, and their results without the prelude.
FORMS = {
    "an import of ghosts": ("ghost use A.b.{◌≡◌, c, {0}};\nuse x::Y;\n", "\nuse x::Y;\n"),
    "a ghost member": (
        "impl A {\n    /// Its value.\n    ghost view = { λ a. a.b };\n\n    fn f() {}\n}\n",
        "impl A {\n    \n\n\n    fn f() {}\n}\n",
    ),
    "a ghost field": ("struct A {\n    a: u8,\n    pub ghost b: { a ≡ 1 } by { c },\n}\n",
                      "struct A {\n    a: u8,\n\n}\n"),
    "a ghost field of the crate": ("struct A {\n    pub(crate) ghost b: { a ≡ 1 },\n    a: u8,\n}\n",
                                   "struct A {\n\n    a: u8,\n}\n"),
    "a ghost of a trait": ("trait T {\n    ghost b: { Self → A };\n    fn f();\n}\n", "trait T {\n\n    fn f();\n}\n"),
    "a ghost field without a comma": ("struct A { a: u8, ghost b: { c } }\n", "struct A { a: u8,  }\n"),
    "clauses": (
        "fn f(a: u8) -> u8\n    requires { a < 1 }\n    ensures * b { c\n        ≡ d }\n{\n    a\n}\n",
        "fn f(a: u8) -> u8\n\n\n\n{\n    a\n}\n",
    ),
    "a clause in a trait": ("trait T {\n    fn f()\n        ensures { a };\n}\n", "trait T {\n    fn f()\n;\n}\n"),
    "attributes of proofs": ("#![tactic(auto)]\n\n#[tactic(auto, using(a))]\nfn f() {}\n", "\n\n\nfn f() {}\n"),
    "derives": ("#[derive(Debug, Drop)]\nstruct A;\n#[derive(Drop)]\nstruct B;\n#[derive(Clone, Copy)]\nstruct C;\n",
                "#[derive(Debug)]\nstruct A;\n\nstruct B;\n#[derive(Clone, Copy)]\nstruct C;\n"),
    "a formatter": ("impl A {\n    fn fmt<W: fmt::Write>(&self, f: &mut fmt::Formatter<W>) -> R {}\n}\n",
                    "impl A {\n    fn fmt(&self, f: &mut fmt::Formatter<'_>) -> R {}\n}\n"),
    "a path of std": ("use std::alloc::{AllocError, Global};\nuse std::{env, io};\nuse a::std::b;\n",
                      "use rattle_std::alloc::{AllocError, Global};\nuse rattle_std::{env, io};\nuse a::std::b;\n"),
    "methods": ("fn f() { a.expect(rt, b); c.to_vec(d); expect(e); }\n",
                "fn f() { a.expect_by(rt, b); c.to_vec_by(d); expect(e); }\n"),
    "a clone that may fail": ("impl Clone for A {}\nfn f<T: Clone>() {}\n",
                              "impl TryClone for A {}\nfn f<T: TryClone>() {}\n"),
    "a function that stays": ("trait T { final fn f() {} }\n", "trait T { fn f() {} }\n"),
    "a block that is unsafe": ("fn f() { unsafe { g() } }\n", "fn f() { { g() } }\n"),
    "words in texts and comments": (
        '// ghost use a;\nconst A: &str = "ensures { ◌ }"; // requires\n',
        '// ghost use a;\nconst A: &str = "ensures { ◌ }"; // requires\n',
    ),
    "lifetimes and characters": (
        "fn f<'a>(a: &'a [u8]) { b == '\\'' || c == '{' || d == b'\"'; }\n",
        "fn f<'a>(a: &'a [u8]) { b == '\\'' || c == '{' || d == b'\"'; }\n",
    ),
}
# Sources, and the causes of their refusal.
REFUSED = {
    "ghost fn f() {}\n": "a.rt:1: `ghost fn f` is no form of a ghost",
    "ghost let a = 1;\n": "`ghost let a` is no form of a ghost",
    "struct A { ghost b: { c } d: u8 }\n": "a ghost ends with `d`",
    "impl A { ghost b = { c }, }\n": "a ghost ends with `,`",
    "fn f()\n    decreases { a }\n{}\n": "a.rt:2: `decreases {` is no clause that is known",
    "fn f() ensures a b { c } {}\n": "`ensures` without its clause",
    "#[repr(C)]\nstruct A;\n": "the attribute `repr` is not known",
    "#[derive(Debug, Serialize)]\nstruct A;\n": "the derive `Serialize` is not known",
    "fn f() { todo!() }\n": "the macro `todo!` is not known",
    "use std::collections::HashMap;\n": "`std::collections::HashMap` has no form in rattle_std",
    "use std::fs::{File, rename};\n": "`std::fs::rename` has no form in rattle_std",
    "use std::{io::{self, stdin}};\n": "`std::io::stdin` has no form in rattle_std",
    "fn f() { std::process::exit(1) }\n": "`std::process::exit` has no form in rattle_std",
    "fn f() { a.to_owned() }\n": "the method `to_owned` takes memory that cannot be refused",
    "fn f() { a.iter().collect() }\n": "`collect()` takes memory that cannot be refused",
    "fn f() { a.sort(); }\n": "the method `sort` takes memory that cannot be refused",
    "impl Drop for A {}\n": "`impl Drop` by hand has no form here",
    "impl<T: B> Drop for A<T> {}\n": "`impl Drop` by hand has no form here",
    "async fn f() {}\n": "the word `async` has no form here",
    "unsafe fn f() {}\n": "`unsafe` stands before a block alone",
    "fn fmt<V: fmt::Write>(&self, f: &mut fmt::Formatter<V>) {}\n": "this `fmt` has another signature",
    "fn f() { a ≡ b }\n": "the mark `≡` is none of Rust's",
    "fn f() {\n": "a.rt:1: nothing closes this",
    "fn f() }\n": "a.rt:1: this closes nothing",
    "fn f(]) {}\n": "this closes nothing",
    "\n\nfn f() { /* a */ todo!() }\n": "a.rt:3",
    "fn f() { \"a }\n": "the mark `\"` is none of Rust's",
}


def without_prelude(text: str) -> str:
    """Return a result without its prelude."""
    return text.replace(f"{PRELUDE} ", "").replace(f" {PRELUDE}", "")


def test_each_form() -> None:
    for what, (text, wanted) in FORMS.items():
        assert without_prelude(plain("a.rt", text)) == wanted


def test_each_refusal() -> None:
    for text, why in REFUSED.items():
        with pytest.raises(Refused) as refusal:
            plain("a.rt", text)
        assert why in str(refusal.value)


def test_a_test_makes_its_own_runtime() -> None:
    made = plain("a.rt", "#[test]\nfn it_holds(rt: HostRuntime) -> Result<(), Fail> {\n    a(rt)\n}\n")
    runtime = "let rt = rattle_std::rt::HostRuntime;"
    assert f"fn it_holds() {{ fn inner() -> Result<(), Fail> {{ {runtime}\n    a(rt)\n}}" in made
    assert "rattle_std::test::Ended::ended(inner())" in made
    made = plain("a.rt", "#[test]\nfn it_holds(rt: HostRuntime) {\n    a(rt)\n}\n")
    assert "fn it_holds() { let rt = rattle_std::rt::HostRuntime;\n    a(rt)\n}\n" in made


def test_main_is_that_of_c() -> None:
    made = plain("a.rt", "//! It.\nfn main(rt: HostRuntime) -> ExitCode {\n    a(rt)\n}\n")
    assert made.startswith("#![no_main] //! It.\n")
    assert 'extern "C" fn main(count: i32, words: *const *const u8) -> i32 { fn inner() -> ExitCode {' in made


def test_the_prelude_stands_in_each_module() -> None:
    made = plain("a.rt", "//! It.\n#![allow(a)]\n/// One.\nfn f() {}\nmod m {\n    fn g() {}\n}\n")
    assert made.count(PRELUDE) == 2
    assert f"{PRELUDE} /// One.\nfn f()" in made


def test_a_file_that_lost_a_token_is_refused() -> None:
    def losing(text: str, edits: list[Edit]) -> str:
        return applied(text, edits).replace("b + c", "b c")

    with mock.patch.object(eraser, "applied", losing):
        with pytest.raises(Refused, match="a.rt: what was erased and what was kept are not the source"):
            plain("a.rt", "fn f()\n    requires { a }\n{ b + c }\n")


def test_a_crates_own_macro_is_known() -> None:
    text = "macro_rules! next { () => {} }\nfn f() { next!() }\n"
    assert "next!()" in plain("a.rt", text, macros_of(text))


def test_each_is_put_together_again() -> None:
    files = [file for crate in listed() for file in sorted((ROOT / "crates" / crate.name / "src").rglob("*.rt"))]
    assert len(files) > 200
    for file in files:
        text = file.read_text()
        edits = edits_of(file.name, text)
        assert put_together(text, edits) == text, file
        texts = [token.text for token in tokens(applied(text, edits)) if token.kind is Kind.WORD]
        assert not {"ghost", "requires", "ensures", "tactic"} & set(texts), file


def put_together(text: str, edits: list[Edit]) -> str:
    """Return the kept and erased texts in order, separated by the edits and not by the eraser."""
    pieces, at = [], 0
    for edit in edits:
        pieces += [text[at:edit.at], edit.old]
        at = edit.at + len(edit.old)
    return "".join([*pieces, text[at:]])
