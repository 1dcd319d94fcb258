"""Read the texts of Rattle: tokens (lexer), code (`*.rt`), specs and proofs (antt, `*.antt`), and crates.txt (crates).

The gate, the statement, the eraser of `rust` and the tests of the house read them by these modules alone. They know as
much of the language as their callers need, and read texts alone: no prover runs.
"""
