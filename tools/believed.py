#!/usr/bin/env python3
"""What must be believed: the definition lines that the promises reach.

    python3 tools/believed.py             lines by demand, and in all
    python3 tools/believed.py files       the same, file by file
    python3 tools/believed.py table       the table of docs/PROOF.md: the files in reading order, with their lines
    python3 tools/believed.py check       is that table in docs/PROOF.md, does every theorem stand where PROOF.md says, has crate lua54 every call that
                                          is promised, and is every function that it hands on promised? Exit status 1 if not
    python3 tools/believed.py write       puts the counts and that table into docs/PROOF.md
    python3 tools/believed.py unreached   definitions in specs/ that no promise reaches (inner contracts use them)

A promise is a public theorem of the files in PROMISES: its statement counts, not its proof. From the names in a
statement the script goes on through the definitions (abbrev, unfoldable, record, data; in specs/ whatever stands
there) of crates/*/specs and crates/*/proofs. A line is counted once, without comments and blank lines. What the
kit defines (numbers, lists, the program logic) is not counted; the types that crates/*/src declare are counted apart.
"""
import collections
import glob
import os
import re
import sys

ROOT = os.path.join(os.path.dirname(os.path.abspath(__file__)), '..')
# demand -> its promises: the public theorems of crates/CRATE/proofs/FILE.antt, or those that are named behind a colon
PROMISES = {
    'demand 1': ['demands/Demand1', 'demands/Order', 'demands/AtOneByte', 'demands/CutShort', 'demands/Continued:continues endless_lacks not_endless', 'demands/ByLimits:by_the_limits by_the_file not_vague',
                 'demands/Blame:blames', 'demands/Fault:limits_only', 'demands/Mends:mends', 'demands/Blamed:read_named', 'demands/HeaderPlaces:header-places', 'demands/Ample:unlimited', 'demands/Exactly', 'demands/Accepted',
                 'demands/ByC', 'demands/RefusedAt', 'demands/PartsInOrder', 'demands/Printed', 'format/RefusalNumbers', 'c_boundary/Numbers'],
    'demand 2': ['demands/Demand2', 'demands/More', 'demands/Demand2C', 'demands/Promise', 'demands/Request07:strict_as_lua strict_then_read only_besides', 'format_lua/LdumpWhole:copy_as_dumped copy_as_stripped',
                 'word_fields/Macros', 'word_fields/Created', 'word_fields/RoundTrip:same_word', 'word_opcodes/Opcodes', 'line_lookup/Ldebug:same_line'],
    'demand 3': ['demands/Demand3', 'demands/ShownAt:shown-at', 'demands/Same:header_fixed same_exactly', 'demands/Complete'],
    'demand 3 by the calls': ['demands/ByCalls'],
    'request 1': ['demands/Request01'],
    'request 2': ['demands/Request02', 'demands/AfterCounts'],
    'request 3': ['demands/Request03'],
    'request 4': ['demands/Request04'],
    'request 5': ['demands/Request05'],
    'request 6': ['demands/Request06', 'demands/SameInFull:same_in_full', 'format_lua/LdumpFull:full_as_dumped short-object no_object one-object'],
    'request 7': ['demands/Request07', 'demands/StrictOrder', 'demands/StrictBlame:strict_blames', 'demands/StrictFault:strict_limits_only', 'demands/StrictMends:strict_mends', 'demands/Blamed:strict_named', 'demands/HeaderPlaces:strict_header-places', 'demands/Ample:strict_unlimited', 'format_strict/StrictAgrees:strict_agrees besides', 'format_lua/StrictLoaded:strict_as_loaded'],
}
# the table of docs/PROOF.md: what a group of files says, and the files; what is reached and named nowhere here comes last
GROUPS = [
    ('the grammar of a chunk under limits, and the reading; no reader in it', 'format/specs: Form GrammarFields GrammarHeader Reading GrammarChunk Limits'),
    ("the Rust's reader as a function, with every refusal and place", 'format/specs: Read ReadFields ReadHeader ReadChunk Refusals Warnings'),
    ('the stricter grammar, and its reader as a function, with every refusal and place', 'format_strict/specs: GrammarStrict ReadStrict'),
    ('the archive copy and the full copy; how long their numbers are, by their leading zeros', 'format/specs: Shortest Copy FullCopy; copy_put/specs: Lengths'),
    ('how a chunk is spelt, counted along the grammar; the same along the reader, for contracts', 'format_spelling/specs: Spelling ReadSpelling'),
    ('what each call on a chunk answers, and leaves in lent memory', 'show_row/specs: Asked; show_chunk/specs: Summaries Fields; show_entry/specs: Entries; show_local/specs: Locals; index/specs: Index; copy/specs: Copied; copy_full/specs: InFull; slice/specs: Over'),
    ("how the code's values show places, strings, constants, warnings", 'slice/specs: Shown; read_field/specs: Shown; read_header/specs: Shown; read_entry/specs: Shown; read_nth/specs: Shown; read_chunk/specs: Decoded'),
    ('the line of an instruction; the lines of a list of pcs', 'line_lookup/specs: Lines; line_batch/specs: Batch'),
    ('the findings of an instruction and of a chunk, the stop, the verdict; the same as loops, as the Rust has them', 'validate_rules/specs: Rules Findings Rust; format/specs: Any; validate_verdict/specs: Answers; validate_plan/specs: Validated; validate_findings/specs: Blank'),
    ('instruction words; lopcodes.h', 'word_opcodes/specs: Table Lopcodes; word_fields/specs: Word; word_fields/proofs: Ranges Words Macros Created'),
    ('for who links from C: limits, refusals and answers as numbers; parts at a place, with the readers of a function in two parts', 'c_boundary/specs: Status; c_boundary/proofs: Numbers; c_words/specs: Words; c_entries/specs: EntryNumbers; c_numbers/specs: Numbers; c_finding/specs: FindingNumbers; c_findings/specs: FindingNumbers; lafzimdo/specs: Answers Version; c_parts/specs: PartNumbers; c_entries_at/specs: EntryNumbers; read_prototype/specs: Front Parts PartsShown; read_entry/specs: Readers'),
    ('what `chunklist` prints', 'chunklist_listing/specs: Listing; chunklist_lines/specs: Lines; format/specs: Ascii; text_print/specs: Output Digits'),
    ("Lua's own loader, dumper and line lookup, close to the C", 'format_lua/specs: Lundump LundumpFunctions LundumpWithin Ldump LdumpFunctions; line_lookup/specs: Ldebug; format_lua/proofs: LdumpChunk LdumpWhole LdumpFull; line_lookup/proofs: Ldebug Rising'),
    ("words of demand 1's statements: a call's conditions in order; what a refusal is about", 'demands/proofs: Refused Causes InOrder Early Order AtOneByte CutShort Continued ByLimits Blame Fault Mends Blamed HeaderPlaces Ample Exactly Accepted ByC RefusedAt PartsInOrder Printed Demand1; format/proofs: RefusalNumbers'),
    ("words of demand 2's statements: a whole contract", 'demands/proofs: Promise Demand2 Demand2C'),
    ("words of demand 3's and the requests' statements: what is shown, what is set aside", 'demands/proofs: Request01 Request02 AfterCounts Request03 Request05 Depths Request06 Request07 StrictOrder Demand3 ByCalls Calls Written Same SameInFull Inherits Alike Together Complete ShownAt SpeltHere EntriesAt Nested; format/proofs: Located OrderCases; read_nth/proofs: Strings; line_batch/proofs: Laws'),
]
WORD = re.compile(r'[^\s(){};,\[\]]+')
HEAD = re.compile(r'^( *)(abbrev |unfoldable )?(pub )?(record |data )?(\S+)')


def module_of(path):
    """crates/C/specs/A/B.antt -> (C, 'specs', 'A.B')"""
    parts = os.path.relpath(path, ROOT).split(os.sep)
    return parts[1], parts[2], '.'.join(parts[3:])[:-len('.antt')]


class File:
    def __init__(self, path):
        self.path, self.key = path, module_of(path)
        self.lines = open(path, encoding='utf-8').read().split('\n')
        self.names, self.aliases, self.items = {}, {}, {}
        self.uses()
        self.blocks()

    def uses(self):
        text = '\n'.join(self.lines)
        for m in re.finditer(r'^(?:pub )?use ([^\s{]+?)(?:\.\{([^}]*)\})?(?: as (\S+))?$', text, re.M):
            path, names, alias = m.groups()
            for n in re.split(r'[,\s]+', (names or '').strip()):
                if n:
                    self.names[n] = path
            if alias:
                self.aliases[alias] = path
            elif names is None:
                self.aliases[path.split('.')[-1]] = path

    def blocks(self):
        i, n = 0, len(self.lines)
        around = []  # the modules around a line, each with its indentation and the words of its telescope, which belong to what is stated in it
        while i < n:
            line = self.lines[i]
            s = line.strip()
            m = HEAD.match(line)
            if s and not s.startswith('--'):
                depth = len(line) - len(line.lstrip())
                around = [a for a in around if a[0] < depth]
                if re.match(r'module\b', s):
                    words = set()
                    while True:
                        words.update(WORD.findall(re.sub(r'(^|\s)--.*', '', self.lines[i])))
                        if self.lines[i].rstrip().endswith('where') or i + 1 == n:
                            break
                        i += 1
                    around.append((depth, words))
                    i += 1
                    continue
            if not s or s.startswith('--') or not m or re.match(r'^ *(pub )?(use|mod|module|infix\w*|unfolding|where)\b', line):
                i += 1
                continue
            indent, kind, _, record, name = m.groups()
            if name[0] in "({" or len(indent) > 4 or not (kind or record or re.match(r'^ *(pub )?\S+ :( |$)', line)):
                i += 1
                continue
            body, k = [i], i + 1
            signature = [i]
            whole = bool(kind or record or self.key[1] == 'specs')
            while k < n:
                t = self.lines[k]
                ind = len(t) - len(t.lstrip())
                if t.strip() == '':
                    break
                if ind <= len(indent) and record:
                    break
                if t.strip().startswith('--'):
                    k += 1
                    continue
                if ind > len(indent) and k == signature[-1] + 1 and not record:
                    if len(signature) == len(body):
                        signature.append(k)
                body.append(k)
                k += 1
            lines = body if whole else signature
            words = set()
            for j in lines:
                text = re.sub(r'(^|\s)--.*', '', self.lines[j])
                words.update(WORD.findall(text))
            for depth, telescope in around:
                words |= telescope
            if 'do' in words:
                words.update(('◌>>=◌', '◌>>◌'))
            self.items.setdefault(name, (lines, words, whole))
            if record == 'data ':
                for j in body[1:]:
                    c = re.match(r'\s+(?:pub )?(\S+)\s*:', self.lines[j])
                    if c:
                        self.items.setdefault(c.group(1), ([], {name}, True))
            i = k if k > i else i + 1


FILES = {}
for path in sorted(glob.glob(ROOT + '/crates/*/specs/**/*.antt', recursive=True) + glob.glob(ROOT + '/crates/*/proofs/*.antt')):
    f = File(path)
    FILES[f.key] = f


def resolve(f, word):
    """The definition that a word of f names."""
    if word in f.items:
        return f, word
    path, name = f.names.get(word), word
    if path is None and '.' in word:
        first, name = word.split('.', 1)
        path = f.aliases.get(first)
    if path is None:
        return None
    m = re.match(r'Rattle\.(\w+)\.(specs|proofs)\.(.+)$', path)
    g = m and FILES.get((m.group(1), m.group(2), m.group(3)))
    return (g, name) if g and name in g.items else None


def reached(roots):
    seen, todo = set(), list(roots)
    while todo:
        f, name = todo.pop()
        if (f.key, name) in seen:
            continue
        seen.add((f.key, name))
        for w in f.items[name][1]:
            # (`x.f` is a field of x, but where x names a module)
            for v in {w, '◌' + w + '◌', *([] if w.split('.')[0] in f.aliases else w.split('.'))}:
                r = resolve(f, v)
                if r:
                    todo.append(r)
    return seen


def types_of(seen):
    """The lines of the types of crates/*/src that these name."""
    named, lines = set(), 0
    for key, name in seen:
        f = FILES[key]
        for w in f.items[name][1]:
            for v in {w, w.split('.')[0]}:
                m = re.match(r'Rattle\.(\w+)\.specs\.declared\.([\w.]*?)(\w+)(?:\.TheVariants)?$', f.names.get(v) or f.aliases.get(v) or '')
                # (the kit's own types, as std's, are not counted)
                if m and os.path.isdir(os.path.join(ROOT, 'crates', m.group(1))):
                    named.add((m.group(1), m.group(2).rstrip('.').replace('.', '/') or 'lib', m.group(3)))
    for crate, module, name in named:
        text = open(os.path.join(ROOT, 'crates', crate, 'src', module + '.rt'), encoding='utf-8').read()
        body = re.search(r'^(?:pub )?(?:struct|enum) ' + name + r'\b[^{;]*(?:\{.*?^\}|;|\{[^\n]*\}$)', text, re.M | re.S)
        if not body:
            sys.exit(f'no type {name} in crates/{crate}/src/{module}.rt')
        lines += sum(1 for line in body.group().split('\n') if line.strip() and not line.strip().startswith('//'))
    return len(named), lines


def lines_of(seen):
    out = set()
    for key, name in seen:
        f = FILES[key]
        if f.items[name][2]:
            out.update((key, j) for j in f.items[name][0])
    return out


def promises(places):
    roots = []
    for place in places:
        path, _, only = place.partition(':')
        crate, module = path.split('/')
        f = FILES[(crate, 'proofs', module)]
        public = {m.group(1) for m in (re.match(r'^ *pub (\S+) :', line) for line in f.lines) if m}
        wanted = set(only.split()) or {n for n in f.items if n in public}
        for name in sorted(wanted):
            if name not in f.items or name not in public:
                sys.exit(f'no public theorem {name} in crates/{crate}/proofs/{module}.antt')
            roots.append((f, name))
    return roots


def table(every):
    count = collections.Counter(key for key, _ in every)
    rows, named = [], set()
    for says, places in GROUPS:
        files, total = [], 0
        for part in places.split('; '):
            folder, modules = part.split(': ')
            crate, kind = folder.split('/')
            shown = []
            for m in modules.split():
                named.add((crate, kind, m))
                total += count[(crate, kind, m)]
                shown.append(f'{m} {count[(crate, kind, m)]}')
            files.append(f'crates/{folder}: ' + ', '.join(shown))
        rows.append(f'| {says} | {total} | {"; ".join(files)} |')
    left = sorted(k for k in count if k not in named)
    if left:
        rows.append(f'| else | {sum(count[k] for k in left)} | {"; ".join("crates/" + "/".join(k) + " " + str(count[k]) for k in left)} |')
    return '\n'.join(['| says | lines | files, with the lines of each |', '|---|--:|---|'] + rows + [f'| **in all** | **{len(every)}** | |'])


def cited(text):
    """The theorems that PROOF.md cites: behind a file's name, in backticks, up to the next file."""
    bad = []
    for line in text.split('\n'):
        if not line.startswith('|'):
            continue
        folder, f = 'demands/proofs', None
        for m in re.finditer(r'(crates/(\w+/(?:proofs|specs))/)?(\w+)\.antt|\|(?=[^|]*Demand3)|`([^`]+)`', line):
            if m.group(3):
                if m.group(1):
                    folder = m.group(2)
                crate, kind = folder.split('/')
                f = FILES.get((crate, kind, m.group(3))) or FILES.get(('demands', 'proofs', m.group(3)))
                if not f:
                    bad.append(f'no file {m.group(3)}.antt in crates/{folder}')
            elif m.group(4) and f and re.fullmatch(r'[a-z0-9]+([-_][a-z0-9]+)+', m.group(4)) and m.group(4) not in f.items and m.group(4) not in f.names:
                bad.append(f'{m.group(4)} is not in {os.path.relpath(f.path, ROOT)}')
    return bad


def methods(crate, path):
    """The public methods of a type of crates/CRATE/src."""
    module, _, name = path.rpartition('::')
    text = open(os.path.join(ROOT, 'crates', crate, 'src', (module.replace('::', '/') or 'lib') + '.rt'), encoding='utf-8').read()
    found = re.findall(r'^impl ' + name + r' \{(.*?)^\}', text, re.M | re.S)
    return [f'{path}::{m}' for body in found for m in re.findall(r'^    pub fn (\w+)', body, re.M)]


def handed_on(text):
    """What the `pub use` lines of that text hand on, each by its whole path."""
    found = []
    for start, group, last in re.findall(r'^pub use ([\w:]+?)(?:::\{([^}]*)\}|::(\w+));', text, re.M):
        found += [f'{start}::{name.strip()}' for name in (group or last).split(',') if name.strip()]
    return found


def facade():
    """Calls of Demand2.antt (but for the inner part of a program) that crate lua54 lacks, and functions that it hands on and no promise speaks of."""
    handed = handed_on(open(os.path.join(ROOT, 'crates/lua54/src/lib.rt'), encoding='utf-8').read())
    text = '\n'.join(FILES[('demands', 'proofs', 'Demand2')].lines)
    bad = []
    for m in re.finditer(r'^use Rattle\.(\w+)\.proofs\.([\w.]+) as (\S+)-[cC]all$', text, re.M):
        path = m.group(1) + '::' + m.group(2).replace('.', '::')
        if not re.search(r' Promise(?:Where|Given) \(?' + re.escape(m.group(3)) + r'-contract\.ended ', text) and path not in handed and path.rpartition('::')[0] not in handed:
            bad.append(f'crates/lua54 has no {path}')
    promised = set()
    for f in FILES.values():
        if f.key[:2] == ('demands', 'proofs'):
            text = '\n'.join(f.lines)
            for name, call in re.findall(r'^use Rattle\.(\w+\.specs\.contracts\.[\w.]+) as (\S+)-contract$', text, re.M):
                if re.search(r': Promise(Where)? {0}-contract\.ended {0}-[cC]all\.Symbol\.code {0}-[cC]all\.Symbol\.name '.format(re.escape(call)), text):
                    promised.add(name.replace('.specs.contracts.', '::').replace('.', '::'))
    for whole in handed:
        crate, _, path = whole.partition('::')
        for name in [path] if path.rpartition('::')[2][0].islower() else methods(crate, path):
            if f'{crate}::{name}' not in promised:
                bad.append(f'no promise of {crate}::{name}, which crate lua54 hands on')
    return bad


def main(words):
    every, all_roots = set(), []
    by = {}
    counts = []
    for demand, names in PROMISES.items():
        roots = promises(names)
        all_roots += roots
        by[demand] = lines_of(reached(roots))
        counts.append(f'{demand}: {len(roots)} promises reach {len(by[demand])} lines of definitions')
        every |= by[demand]
    counts.append(f'in all: {len(every)} lines')
    counts.append('types that crates/*/src declare and these name: %d, of %d lines' % types_of(reached(all_roots)))
    word = words[0] if words else ''
    if word == 'table':
        print(table(every))
        return
    if word == 'write':
        path = os.path.join(ROOT, 'docs/PROOF.md')
        text = open(path, encoding='utf-8').read()
        for c in counts:
            text = re.sub(r'(?m)^(   - )' + re.escape(c.split(':')[0]) + ': .*$', lambda m: m.group(1) + c, text)
        text = re.sub(r'(?s)\| says \| lines \|.*?\| \*\*in all\*\* \| [^\n]*', lambda m: table(every), text)
        open(path, 'w', encoding='utf-8').write(text)
        return
    if word == 'check':
        text = open(os.path.join(ROOT, 'docs/PROOF.md'), encoding='utf-8').read()
        hour = f"They reach {len(by['demand 3 by the calls'])} lines of definitions"
        bad = cited(text) + facade() + [c for c in counts + [table(every), hour] if c not in text.replace('\n', ' ') and c not in text]
        print('\n'.join(bad) if bad else 'docs/PROOF.md is true of the sources; crate lua54 has every call, and each has its promise')
        sys.exit(1 if bad else 0)
    print('\n'.join(counts))
    if word == 'files':
        for demand, lines in list(by.items()) + [('in all', every)]:
            print(f'\n{demand}')
            for key, k in sorted(collections.Counter(key for key, _ in lines).items()):
                print(f'{k:6d}  crates/{key[0]}/{key[1]}/{key[2].replace(".", "/")}.antt')
    if word == 'unreached':
        seen = reached(all_roots)
        for key, f in sorted(FILES.items()):
            if key[1] == 'specs':
                un = [n for n, v in f.items.items() if v[0] and (key, n) not in seen]
                if un:
                    print(f'crates/{key[0]}/specs/{key[2].replace(".", "/")}.antt: {" ".join(un)}')


main(sys.argv[1:])
