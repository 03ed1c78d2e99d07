#!/usr/bin/env python3
"""extract.py SOURCE-FOLDER BUILD-FOLDER

Lays out in BUILD-FOLDER/src a Rust program: the taken functions' text from SOURCE-FOLDER, the stand-ins and the program of this
folder. The source's text is copied as it stands; a private function is made visible to the program, nothing else."""
import pathlib
import re
import shutil
import sys

HERE = pathlib.Path(__file__).resolve().parent
FORMULA = "crates/rossi/src/formula"
REASONERS = "crates/rossi-prove/src/reasoners"
WHOLE_FILES = ["tag.rs", "decl.rs", "expression.rs", "factory.rs"]
USES = """#![allow(unused_imports)]
use rossi::formula::tag::*;
use rossi::formula::{Expression, ExpressionKind, Predicate, PredicateKind, Type};
"""
FUNCTIONS = {
    "mod.rs": ["make_neg"],
    "rewrites.rs": ["literal", "is_literal", "simplify_assoc_pred", "simplify_predicate_node"],
    "auto_rewriter.rs": [
        "btrue", "bfalse", "is_atomic", "finite", "is_empty", "is_not_empty", "not", "rel", "conj", "disj",
        "rewrite_finite", "functional_check", "rewrite_partition", "rewrite_not",
        "rewrite_equals_type", "ty_base_expression", "rewrite_equals_empty_set",
    ],
}


def function(text, name):
    """The top-level function's text: from its `fn` to the next line that is a lone brace."""
    found = re.findall(r"^(?:pub(?:\(\w+\))? )?(fn %s\b.*?^}$)" % name, text, re.M | re.S)
    if len(found) != 1:
        sys.exit("extract.py: %d functions named %s" % (len(found), name))
    return "pub(crate) " + found[0] + "\n"


def main(source, build):
    out = build / "src"
    shutil.rmtree(out, ignore_errors=True)
    shutil.copytree(HERE / "standins", out)
    shutil.copytree(HERE / "program", out, dirs_exist_ok=True)
    for name in WHOLE_FILES:
        shutil.copy(source / FORMULA / name, out / "formula" / name)
    (out / "reasoners").mkdir()
    for name, functions in FUNCTIONS.items():
        text = (source / REASONERS / name).read_text(encoding="utf-8")
        head = USES + ("pub(crate) mod auto_rewriter;\npub(crate) mod rewrites;\n" if name == "mod.rs" else "")
        parts = [head] + [function(text, f) for f in functions]
        (out / "reasoners" / name).write_text("\n".join(parts), encoding="utf-8")


if len(sys.argv) != 3:
    sys.exit(__doc__)
main(pathlib.Path(sys.argv[1]), pathlib.Path(sys.argv[2]))
