#!/usr/bin/env python3
"""Renames a module or a word in all files of the repository, so that no place is forgotten. For maintainers.

    tools/rename.py [--dry-run] [--force] module CRATE OLD::PATH NEW::PATH
    tools/rename.py [--dry-run] [--force] word OLD NEW [CRATE..]

`module` gives a module with a file of its own another name in the same parent: `module wasmprinter_fold tree growing_tree`. It moves the file and
the folders of the module in `src`, `proofs` and `specs`, and changes its line `mod`, each path to it in code (also in a group of a `use`, and through
a name that a `use` binds), in definitions, proofs and mutants, and paths in comments, documents, tools and recipes. A line `old:` or `new:` of a
mutant means what it means in its file. A list of `mod` lines that was sorted stays sorted.

`word` changes each whole word in code, definitions, proofs and mutants of the crates, or of all, also the parts of names with hyphens
(`returns-clause-OLD`), names of implementations (TYPETRAIT), and files and folders of `proofs` and `specs` with the name. Strings never change.
In comments and documents an OLD that may be an English word changes only in backquotes and in blocks. The documents and tools change
only if no other crate has the word.

Refused are: a target that exists or that differs from another name of the module in case only, a module that gets another parent, a word that the
kit's libraries define or that a crate which is not named uses too, and a work tree with changes (except with --force).
CHANGELOG.md never changes. Prints all changes, then the places that may still mean the old name, then the commands to run next. With --dry-run
nothing is written. The status is 1 if nothing is renamed.
"""

import argparse
import pathlib
import sys

sys.dont_write_bytecode = True

from rename.module import ModuleRename  # noqa: E402
from rename.mutants import broken_mutants  # noqa: E402
from rename.repository import HISTORY, Refused, Repository  # noqa: E402
from rename.word import WordRename  # noqa: E402

ROOT = pathlib.Path(__file__).resolve().parent.parent
CHECKS = ("edits", "recipes", "documents")


def arguments():
    """Returns the arguments of the command line."""
    parser = argparse.ArgumentParser(usage=__doc__.split("\n\n")[1].strip())
    parser.add_argument("--dry-run", action="store_true")
    parser.add_argument("--force", action="store_true")
    kinds = parser.add_subparsers(dest="kind", required=True)
    for kind, names in (("module", ("crate", "old", "new")), ("word", ("old", "new"))):
        one = kinds.add_parser(kind)
        for name in names:
            one.add_argument(name)
        for option in ("--dry-run", "--force"):
            one.add_argument(option, action="store_true", default=argparse.SUPPRESS)
    kinds.choices["word"].add_argument("crates", nargs="*")
    return parser.parse_args()


def renaming(repository, given):
    """Returns the renaming that the arguments ask for."""
    if given.kind == "word":
        return WordRename(repository, given.old, given.new, given.crates)
    old, new = given.old.split("::"), given.new.split("::")
    if old[:-1] != new[:-1] or old == new:
        raise Refused("a module gets another name in the same parent: it does not move")
    return ModuleRename(repository, (given.crate, *old), new[-1])


def report(repository, left, is_dry):
    """Prints the changes, what is left, and what to do next."""
    print("\n".join(repository.plan()))
    if broken := broken_mutants(repository):
        print("\nMutants that no longer apply:\n  " + "\n  ".join(broken))
    if left:
        print(f"\nNot changed, look at these {len(left)} lines:\n  " + "\n  ".join(left))
    if is_dry:
        print("\nNothing was written.")
        return
    print("\nNow run:")
    for crate in repository.touched():
        print(f"  (cd crates/{crate} && rt fmt)")
    for check in CHECKS:
        print(f"  python3 -B tools/{check}.py")
    print(f"Then check the crates that changed. A public name also needs a row in {HISTORY}, which was not changed.")


def main():
    given = arguments()
    try:
        repository = Repository(ROOT)
        if not given.force and not given.dry_run and repository.git("status", "--porcelain"):
            raise Refused("the work tree has changes: commit them, or use --force")
        change = renaming(repository, given)
        change.run()
        left = change.left()
        if not given.dry_run:
            repository.write()
        report(repository, left, given.dry_run)
    except Refused as reason:
        sys.exit(f"rename: {reason}")


if __name__ == "__main__":
    main()
