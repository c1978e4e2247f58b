#!/usr/bin/env python3
"""Lists the places in src/ that have a form which today's Rattle says better, point by point, and counts them.

usage: python3 tools/forms.py [COMMIT] [POINT]     at the top; with no COMMIT the files as they stand

The points are those of docs/DESIGN-PASS.md. Points 1 to 4, 6 and 7 go by patterns, line by line. Point 5 reads the contracts: a clause (but for its
name) that stands at three or more functions, and two parameters that stand side by side at three or more.
"""
import collections
import re
import subprocess
import sys

PATTERNS = {
    1: [
        ("a check that answers an Option of a fault", r"-> Option<Fault>"),
        ("a number or a byte where an enum names the kind", r"\bIMPORT\b|class <= 3|question\.method ==|match question\.method|fn flag\(|unwrap_or\(Class::Import\)"),
        ("an enum's case that says none, or another outcome", r"^\s+(Absent|NotBuilt\(\w+\)),$"),
        ("a flag in a struct", r"^\s+\w+: bool,$"),
        ("a match that hands an Option or a Result on", r"=> unreachable\(\)|=> match \w+ \{|Ok\((\w+)\) => (Ok\()?\1\b|Some\((\w+)\) => (Some|Ok)\(\3\b|None => None|Err\(_\) => (None|Err)"),
        ("a helper that answers a number for none", r"-> \(u8, u8, u32\)|_ => (0|Ok\(1\)),$|_ => false,$"),
    ],
    2: [
        ("fault types", r"^pub struct \w+Fault \{"),
        ("conversions of fault types", r"^impl From<\w+Fault> for \w+Fault"),
        ("makers of a layer's fault", r"fn (refusal|fault|no_build_unit)\((rule|\))"),
        ("numbers of a size", r"pub fn (word|long|huge)(_at)?\("),
        ("the bytes of a record", r"const RECORD: usize|chunks\(32\)"),
        ("two intakes", r"^(pub )?(enum|struct) (Phase|Intake|Reply|IntakeFault) |pub fn (new|take)\(|fn (ask\w*|enter|answer)\(", r"crates/(intake|record_streams)/src/(phases|faults)"),
        ("rounded quotients", r"fn (quotient|mixture|mean|weighted_mean)\("),
        ("searches by a code", r"fn find_(fuel|unit)\("),
        ("constants and the functions beside them", r"fn (half_grams|may_stand_alone)\(|const (HALF_GRAMS|MAY_STAND_ALONE)"),
        ("runs and sums by one walk", r"fn (walk_run|walk_members|group_sums)\b"),
        ("figures and records said twice", r"^(pub )?const (COAL|MOST_GENERATION|MOST_FACTOR|MOST_EMISSION)\b|[<=>.] ?100_000_000\b.*[{)]|entry\.generation <= 100_000_000", r"crates/(model|book|layers|packed|worked)/"),
        ("answers of two questions", r"fn (both_questions|through_layers)\("),
    ],
    3: [
        ("a loop that counts an index or a place", r"^\s*for \w+ in \d+\.\.|\.enumerate\(\) \{$|^\s*while "),
        ("any other loop", r"^\s*('\w+: )?for (?!\w+ in \d+\.\.)(?!.*\.enumerate\(\) \{$).*\{$|^\s*('\w+: )?loop \{$"),
    ],
    4: [
        ("numbers of an enum", r"pub fn number\(self\)|fn numbered\("),
        ("an order", r"fn is_before\("),
        ("a unit made of another value's parts", r"fn (told|last|unit)\(.*\) -> PowerUnit"),
        ("a fault built again field by field", r"^\s+layer: self\.layer,"),
        ("printing", r"impl fmt::\w+ for|fn text\(|println!|print!\("),
    ],
    6: [
        ("an array with a length beside it", r"^\s+count: usize,"),
        ("a list searched by hand", r"fn (place|find_unit|find_fuel)\("),
        ("a place in a buffer, counted", r"let mut (at|filled) = 0;"),
        ("an array with a value for none", r"= \[0(u16|u32)?; \d+\];"),
    ],
    7: [("a step chosen by a trait or an enum", r"impl Fold for|trait Fold|fn has\(|fn grams_of\(|match MethodKind::|match kind \{")],
}


def read(commit):
    def run(*words):
        return subprocess.run(("git",) + words, check=True, capture_output=True, text=True).stdout

    names = run("ls-tree", "-r", "--name-only", commit, "crates") if commit else run("ls-files", "crates")
    for name in sorted(names.split("\n")):
        if re.match(r"crates/\w+/src/.*\.rt$", name):
            yield name, run("show", "%s:%s" % (commit, name)) if commit else open(name).read()


def by_pattern(files, patterns):
    for what, pattern, *where in patterns:
        places = [
            "%s:%d: %s" % (name, number, line.strip())
            for name, text in files
            for number, line in enumerate(text.split("\n"), 1)
            if re.search(pattern, line) and re.match(where[0] if where else "", name) and not line.strip().startswith("//")
        ]
        yield what, places


FUNCTION = re.compile(r"fn (\w+)(?:<[^{(]*?>)?\(([^{]*?)\)(?: ->[^{]*?)?((?:\n\s*(?:requires|ensures)\*?[^\n]*)+)?\s*(?:\{|;)", re.S)


def repeated(files):
    clauses, pairs = collections.defaultdict(list), collections.defaultdict(list)
    for name, text in files:
        for function in FUNCTION.finditer(text):
            place = "%s: %s" % (name, function.group(1))
            for clause in re.findall(r"(?:requires|ensures)\*?(?: \w+)? \{ (.*) \}", function.group(3) or ""):
                clauses[clause].append(place)
            words = [re.sub(r"\s+", " ", p).strip() for p in function.group(2).split(",")]
            words = [p for p in words if ":" in p and not p.startswith(("rt:", "heap:"))]
            for one, other in zip(words, words[1:]):
                pairs["%s, %s" % (one, other)].append(place)
    yield "a clause at three or more functions", ["%s | %s" % (k, "; ".join(v)) for k, v in clauses.items() if len(v) > 2]
    yield "parameters side by side at three or more", ["%s | %s" % (k, "; ".join(v)) for k, v in pairs.items() if len(v) > 2]


def main():
    commit = sys.argv[1] if len(sys.argv) > 1 and not sys.argv[1] in "1234567" else None
    wanted = [int(a) for a in sys.argv[1:] if a in "1234567"] or range(1, 8)
    files = list(read(commit))
    for point in wanted:
        found = list(repeated(files) if point == 5 else by_pattern(files, PATTERNS[point]))
        print("point %d: %d" % (point, sum(len(places) for _, places in found)))
        for what, places in found:
            print("  %s: %d" % (what, len(places)))
            for place in places:
                print("    " + place)


main()
