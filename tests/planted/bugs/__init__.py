"""Tables of planted bugs. A test tries each row of every list in the modules of this folder (tests/planted).

The path of a table is tests/planted/bugs/NAME.py. A row is

    Bug("a base is compared without its end",           the bug, in words that no other row has
        "operations/ropepeach/resync/lists.py",         its file, from the top of the tree
        'if not address.startswith(self.base + "/"):',  a text that occurs in this file exactly once
        "if not address.startswith(self.base):",        the text that replaces it
        "operations/tests/tools/test_exact.py::test_a_base_is_compared_to_its_end")

The last text has the tests that must notice the bug: they pass without it, and at least one fails by an assertion with
it. It is one of
  - words of a command line of pytest: one or more `PATH::test_NAME`, or `PATH -k WORDS`,
  - `cargo CRATE FILTER` for tests of a library in Rust.
Settings of the environment may come first, as `SEED=74`.
is_long=True keeps a row whose tests take minutes for --long.
"""
