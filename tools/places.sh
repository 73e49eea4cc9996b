#!/usr/bin/env bash
# Counts, at a commit (default HEAD), the lines of src/ that may be a place of one of the points of docs/DESIGN-PASS.md.
# With -l it prints the lines too. A line found is not yet a place: the page says what each one is.
set -u
list=0
if [ "${1:-}" = "-l" ]; then list=1; shift; fi
commit=${1:-HEAD}
src=':(glob)crates/*/src/**'

find_lines() { # point, what, pattern
    lines=$(git grep -nE -e "$3" "$commit" -- "$src")
    count=$(printf '%s' "$lines" | grep -c .)
    printf '%s %4d  %s\n' "$1" "$count" "$2"
    if [ "$list" = 1 ] && [ "$count" != 0 ]; then printf '%s\n' "$lines" | sed "s/^$commit:/        /"; fi
}

find_lines 1a 'numbers for kinds, and functions that answer such numbers' 'pub const [A-Z_]+: u(8|16|32) =|fn (number|words|outcome)\b'
find_lines 1b 'fields that are a flag' '^ +(pub )?[a-z_]+: bool,$|^ +[A-Z][A-Za-z]+\(bool\)'
find_lines 1c 'an Option that holds a refusal, or a refusal told by numbers' '-> Option<(TextFault|Break)>|(fault|break|unaimed_place)\b.*-> Option<|-> Result<[A-Za-z]+, Report>'
find_lines 1d 'a value that stands for none' 'None => 0,|None => return 0|Ok\(_\) => Report|(unwrap|map)_or\(0'
find_lines 3a 'loops over numbers' '^ *for .* in .*\.\.'
find_lines 3b 'loops that are no for' '^ *(while |loop \{)'
find_lines 4a 'comparisons written by hand' '^impl.* (PartialEq|Eq|PartialOrd|Ord) for'
find_lines 4b 'functions that compare or convert' 'fn (same|same_target|precedes|rises|names|is_true|is_terminal|is_on|rank_target|weight|differ|report|number|record|node|words|terminal_of|level_of|depth_of|print_root|swapped)\b'
find_lines 6a 'a length, a place or a buffer told beside' '\b(held|count|at|len|width): usize|slots: '
find_lines 6b 'searches by hand' 'let mid ='
find_lines 7 'tests of a flag, and matches on a number' 'if (high|fact|first|bit) \{|match number|match \(left, right\)|: fn\('

echo '2 functions of one name in several crates, and structs with the same fields:'
python3 - "$commit" <<'PY'
import collections, re, subprocess, sys
commit = sys.argv[1]
def git(*a): return subprocess.run(['git', *a], capture_output=True, text=True).stdout
files = [f for f in git('ls-tree', '-r', '--name-only', commit, 'crates').split() if '/src/' in f]
names, shapes = collections.defaultdict(set), collections.defaultdict(set)
required = collections.Counter()
for f in files:
    text = git('show', commit + ':' + f)
    for m in re.finditer(r'\bfn ([a-z_]+)', text): names[m.group(1)].add(f)
    for m in re.finditer(r'struct (\w+)[^{;]*\{([^}]*)\}', text):
        fields = re.sub(r'\s+|pub ', '', re.sub(r'//[^\n]*', '', m.group(2)))
        if fields: shapes[fields].add(m.group(1) + ' ' + f)
    for m in re.finditer(r'requires (?:[a-z_]+ )?\{ (.*) \}', text):
        clause = re.sub(r'\b(rows|slots|block|out|queue|bytes|column|source|self|left|right|heap|run)\b', '_', m.group(1))
        required[re.sub(r'\.(old|now|new)', '', clause)] += 1
trait = {'n', 'root', 'count', 'record', 'put', 'look', 'take', 'is_empty', 'capacity', 'eq', 'cmp', 'partial_cmp', 'from', 'new', 'main', 'run', 'fmt', 'next', 'try_from'}
for n, where in sorted(names.items()):
    if len(where) > 1 and n not in trait: print('  ', n, '|', ', '.join(sorted(where)))
for s, where in sorted(shapes.items()):
    if len(where) > 1: print('   {', s, '} |', ', '.join(sorted(where)))
print('5 facts asked by three or more functions:')
for c, k in required.most_common():
    if k >= 3: print('  ', k, c)
PY
echo "8 $(git ls-tree -r --name-only "$commit" crates | grep -c Answers.antt) files of answers, $(for f in $(git ls-tree -r --name-only "$commit" crates | grep Answers.antt); do git show "$commit:$f"; done | grep -cE '^pub [^ ]+ : goal\.') answers, $(for f in $(git ls-tree -r --name-only "$commit" crates | grep '/proofs/.*\.antt$'); do git show "$commit:$f"; done | wc -l) lines of proofs/"
