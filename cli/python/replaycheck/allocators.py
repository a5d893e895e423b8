"""Functions that aren't the place of a finding: those of allocators, and those of Rust's crates core and alloc, which do what their callers
ask for. They are known by the names of the symbol table, so that nothing here depends on c++filt."""
from __future__ import annotations

import functools
import re

HEAP = ("malloc", "free", "calloc", "realloc")
NEW_AND_DELETE = ("_Znw", "_Zna", "_Zdl", "_Zda")  # how names of new, new[], delete and delete[] begin, whatever the parameters are
RUSTS = {start + end for start in ("__rust_", "__rg_", "__rdl_") for end in ("alloc", "dealloc", "realloc", "alloc_zeroed")}
DIGITS = "0123456789abcdef"
# Rust mangles names in two ways. One is that of C++, with 16 digits at the end. A function of core or alloc has such a path, or it is of an
# impl: of a trait of these crates, for a type of these crates or of none. `(?=(..))\1` matches in one way only: a long name costs little.
HASHED = r"""_ZN(?: 4core | 5alloc |
    \d+_?\$LT\$ (?= ( (?: \$(?:LT|RF|BP|LP|u5b)\$ | (?:mut|const|dyn)\$u20\$ )* ) ) \1
    (?: (?:core|alloc)\.\. | [A-Za-z0-9_]+ (?! \.\. | [A-Za-z0-9_] ) ) .*? \$u20\$as\$u20\$ (?:core|alloc)\.\. )"""
# The other way has the crate of a path or of an impl first; only a trait's own method has that of the type first.
NEW = r"""_R\d* (?: N[A-Za-z] | I | [MX](?:s[0-9A-Za-z]*_)? | Y[a-eh-z]? | [SOPAT] | [RQ](?:L[0-9A-Za-z]*_)? )*
    C(?:s[0-9A-Za-z]*_)? (?: 4core | 5alloc )"""
# What a compiler adds, and the methods of a program's own allocator.
ADDED = r"_RNvC (?:s[0-9A-Za-z]*_)? 7___rustc \d+_ (\w+)"
GLOBAL = r"(?: \.\.GlobalAlloc\$GT\$ | 11GlobalAlloc ) (?: 5alloc | 7dealloc | 7realloc | 12alloc_zeroed )"


@functools.cache
def pattern(text: str) -> re.Pattern[str]:
    """A pattern, which only names of Rust need: it is compiled when the first such name comes."""
    return re.compile(text, re.X)


def is_hashed(symbol):
    """Whether a name is Rust's in the way of C++: `17h`, 16 digits and `E` are its end."""
    body = symbol.partition(".llvm.")[0]
    return symbol.startswith("_ZN") and body.endswith("E") and body[-20:-17] == "17h" and not body[-17:-1].strip(DIGITS)


def is_of_allocator(symbol):
    """Whether a program takes or gives back a block by a function."""
    if symbol in HEAP or symbol in RUSTS or symbol.startswith(NEW_AND_DELETE):
        return True
    if not symbol.startswith("_R") and not is_hashed(symbol):
        return False
    added = pattern(ADDED).fullmatch(symbol)
    return bool(added and added[1] in RUSTS or pattern(GLOBAL).search(symbol))


def is_of_library(symbol):
    """Whether a function is one of Rust's crates core and alloc."""
    if symbol.startswith("_R"):
        return bool(pattern(NEW).match(symbol))
    return is_hashed(symbol) and bool(pattern(HASHED).match(symbol))
