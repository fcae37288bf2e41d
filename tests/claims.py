#!/usr/bin/env python3
"""Holds docs/CLAIMS.md, the claims of the crates and their proofs to each other.

In a cell of a table of docs/CLAIMS.md each file in backquotes is there, and each name in backquotes after a file stands in
that file, outside its comments. What a cell under "Proved" names in a file of src/ is a function with an `ensures`, or one of a trait
whose clauses an impl states by ghost items. A claim is a name of a crate's specs/ that is a statement by itself: `abbrev pub X : Type n`,
or a record without parameters each of whose fields is a statement. A name that specs/Aliases.antt gives to an Option, a
Result or a ControlFlow of numbers and of types of the code, or of such names, states nothing. It stands in docs/CLAIMS.md after its file, and has a proof of exactly its type: `pub x : X` in the
crate's proofs/, in a file that has X from the file of specs/ that states it. That the proof holds is the check's to say.
Files and names of docs/GLOSSARY.md are looked up in the same way. Each text that an edit of a must-fail folder changes stands once in
the file that it names, as the edit's changes before it leave that, and the edit has a row in docs/CLAIMS.md."""
import pathlib
import re
import sys

repo = pathlib.Path(__file__).resolve().parent.parent
ALIAS = re.compile(r'(?m)^abbrev pub (\S+) : Type 0\n\1 = (?:Option|Result|ControlFlow) ([\w ()ℕ]*)$')
CLAIM = re.compile(r'^(?:abbrev|unfoldable) pub (?P<name>\S+) : Type \d+$|^pub record (?P<record>\S+) : Type \d+ where\n(?P<fields>(?: .*\n|\n)*)', re.M)


def names(table):
    """Each name in backquotes in the tables' cells, with its line and the file that it stands after: (line, file, name)."""
    for number, row in enumerate(table.split('\n'), 1):
        for cell in row.split('|')[2:-1] if row.startswith('|') else ():
            file = None
            for name in re.findall(r'`([^`]+)`', cell):
                if re.match(r'(crates|tests|docs|rust)/\S+$', name):
                    file = name
                yield number, file, name


def stands(file, name):
    """Whether a file is there and, but for its own name, has the name outside its comments."""
    path = repo / (file or '')
    if not path.is_file() or file == name:
        return path.is_file()
    text = path.read_text(encoding='utf-8')
    if file.endswith(('.antt', '.rt')):
        text = re.sub(r'(?m)(^|\s)(--|//).*$', '', text)
    return re.search(r'(?<![\w-])' + re.escape(name) + r'(?![\w-])', text) is not None


def proved_by_the_check(table):
    """Each name that a cell under a head "Proved" has after a file of src/: (line, file, name)."""
    column = None
    for number, row in enumerate(table.split('\n'), 1):
        cells = [cell.strip() for cell in row.split('|')[1:-1]] if row.startswith('|') else []
        if not cells or 'Proved' in cells:
            column = cells.index('Proved') if cells else None
        elif column is not None:
            for number_in, file, name in names('\n' * (number - 1) + '| | ' + cells[column] + ' |'):
                if file and file.endswith('.rt') and name != file:
                    yield number_in, file, name


def has_contract(source, name):
    """Whether each function of this name, and there is one, has an `ensures`, or stands in an impl of a trait that has ghost items. What stands
    in a comment does not count."""
    source = re.sub(r'//[^\n]*', '', source)
    heads = list(re.finditer(r'(?m)^( *)(?:pub )?(?:extern "C" )?fn %s\b' % re.escape(name), source))
    for head in heads:
        rest = source[head.start():]
        body = re.search(r'(?m)^(?![^\n]*\b(?:requires|ensures)\b)[^\n]*\{(?: *|[^\n]*\} *)$|;$', rest)
        impls = list(re.finditer(r'(?m)^(?:impl|pub trait|trait)\b.*$', source[:head.start()]))
        block = source[impls[-1].start():head.start()] if impls and head[1] else ''
        by_trait = re.match(r'impl\b.* for ', block) and re.search(r'(?m)^ *ghost (?!use\b)', block)
        if not (re.search(r'\bensures\b', rest[:body.start()] if body else rest) or by_trait):
            return False
    return bool(heads)


def is_statement(field):
    """Whether a field of a record says something; one that ends in a type is a relation to be given, and says nothing."""
    return re.search('[→↔≡≢≤<⊎¬]', field) is not None and re.search(r'→ Type \d+\s*$', field) is None


def without_aliases(spec):
    """The text of a file of aliases without those of values: what stands on the right is a number, a type of the code, or another alias."""
    values = {'ℕ', 'Option', 'Result', 'ControlFlow', *re.findall(r'(?m)^abbrev pub (\S+) : Type 0$', spec)}
    for names in re.findall(r'(?m)^use Rattle\.\w+\.specs\.(?:declared\.\S+|Aliases)\.\{([^}]*)\}$', spec):
        values.update(name.split(' as ')[-1].strip() for name in names.split(','))
    return ALIAS.sub(lambda found: '' if set(re.findall(r'[\wℕ]+', found[2])) <= values else found[0], spec)


def claims(spec):
    for found in CLAIM.finditer(spec + '\n'):
        fields = re.split(r'(?m)^  pub ', found['fields'] or '')[1:]
        if found['name'] or fields and all(map(is_statement, fields)):
            yield found['name'] or found['record']


def proves(proof, crate, stem, claim):
    """Whether a file of proofs has a declaration of exactly that type, by the name that specs/STEM.antt states."""
    has = r'^use Rattle\.%s\.specs\.%s\.\{(?:[^}]*, )?%s(?:, [^}]*)?\}$' % (crate, stem, re.escape(claim))
    anew = r'^(?:abbrev |unfoldable )*(?:pub )?(?:record |data )?%s :' % re.escape(claim)
    return (re.search(r'^pub \S+ : %s$' % re.escape(claim), proof, re.M) is not None
            and re.search(has, proof, re.M) is not None and re.search(anew, proof, re.M) is None)


def finds_what_is_wrong():
    """A claim with its proof; and texts that do not prove it: of another type, of another file's name, stated anew, in a comment."""
    spec = ('abbrev pub Holds : Type 0\nHolds = Unit\n\nabbrev pub Takes : ℕ → Type 0\n\npub record Cell : Type 0 where\n  pub place : ℕ\n\n'
            'pub record Given : Type 1 where\n  pub holds : (n : ℕ) → Type 0\n\n'
            'pub record Examples : Type 0 where\n  -- one\n  pub one : 1 ≤ 1\n\n  pub all : (n : ℕ)\n      → n ≡ n\n')
    use, lemma = 'use Rattle.a.specs.B.{Other, Holds}\n', 'pub holds : Holds\n'
    wrong = [use + 'pub holds : ℕ → Holds\n', use.replace('.B.', '.C.') + lemma, use + 'abbrev Holds : Type 0\n' + lemma, use + '-- ' + lemma]
    aliases = ('use Rattle.a.specs.declared.Error.{Error}\nuse Rattle.a.specs.B.{Holds}\nabbrev pub Answer : Type 0\nAnswer = Result ℕ Error\n\n'
               'abbrev pub Reply : Type 0\nReply = Option Answer\n\nabbrev pub Hides : Type 0\nHides = Option Holds\n')
    return (list(claims(spec)) == ['Holds', 'Examples'] and list(claims(without_aliases(aliases))) == ['Hides'] and proves(use + lemma, 'a', 'B', 'Holds')
            and not any(proves(text, 'a', 'B', 'Holds') for text in wrong)
            and counts('file: f\nold:   x = 1\nnew:   x = 2\n', 'x = 1\n  x = 1\n') == [1]
            and counts('file: f\nold: y\nnew: x\nold: x\nnew: z\n', 'x y') == [1, 2] and counts('file: f\nold: x\nold: y\nnew: z\nnew: x\n', 'x y') == []
            and list(names('| `x` | `crates/a` `y` |\n`z`')) == [(1, 'crates/a', 'crates/a'), (1, 'crates/a', 'y')]
            and list(proved_by_the_check('| P | Stated | Proved |\n|---|---|---|\n| `x` | `crates/a.rt` `y` | `crates/b.rt` `z` |\n\n| `x` | | `crates/b.rt` `u` |')) == [(3, 'crates/b.rt', 'z')]
            and [has_contract(text, 'f') for text in (
                'fn f() -> u8\n    ensures { F result }\n{\n', 'fn f() -> u8 {\n}\nfn g()\n    ensures { G }\n{\n', 'fn g() {\n',
                'impl Walks for W {\n    ghost left = { L };\n\n    fn f() {\n', 'impl W {\n    fn f() {\n',
                'impl Walks for W {\n    ghost use A.{f};\n\n    fn f() {\n', 'fn f() {}\n\nfn g()\n    ensures { G }\n{\n', 'fn f() -> u8\n    // ensures { F result }\n{\n')] == [True, False, False, True, False, False, False, False])


def unproved(listed):
    """Each claim of the crates, with what it lacks."""
    for crate in sorted((repo / 'crates').iterdir()):
        proofs = [p.read_text(encoding='utf-8') for p in sorted((crate / 'proofs').rglob('*.antt'))]
        for path in sorted((crate / 'specs').rglob('*.antt')):
            file = str(path.relative_to(repo))
            spec = path.read_text(encoding='utf-8')
            for claim in claims(without_aliases(spec) if path.stem == 'Aliases' else spec):
                yield file, claim, [*([] if any(proves(text, crate.name, path.stem, claim) for text in proofs) else ['has no proof of exactly that type']),
                                    *([] if (file, claim) in listed else ['is not in docs/CLAIMS.md'])]


def counts(edit, text):
    """How often each text that an edit changes stands in its file, as the changes before it leave that; nothing for an edit that is
    not a file's name and then pairs of an old text and a new one."""
    told = re.findall(r'(?m)^(file|old|new):(?: (.*))?$', edit)
    if [key for key, _ in told] != ['file'] + ['old', 'new'] * (len(told) // 2):
        return []
    found = []
    for (_, old), (_, new) in zip(told[1::2], told[2::2]):
        found.append(text.count(old))
        text = text.replace(old, new)
    return found


def edits(listed):
    """Each edit, with what it lacks."""
    for path in sorted((repo / 'crates').glob('*/must-fail/*.edit')):
        file, edit = str(path.relative_to(repo)), path.read_text(encoding='utf-8')
        changed = path.parent.parent / re.search(r'(?m)^file: (.*)$', edit)[1]
        there = counts(edit, changed.read_text(encoding='utf-8')) if changed.is_file() else []
        yield file, [*([] if there and set(there) == {1} else ['changes a text that stands %s times in its file' % (' and '.join(map(str, there)) or 0)]),
                     *([] if (file, file) in listed else ['is not in docs/CLAIMS.md'])]


def main():
    tables = {doc: list(names((repo / doc).read_text(encoding='utf-8'))) for doc in ('docs/CLAIMS.md', 'docs/GLOSSARY.md')}
    table = tables['docs/CLAIMS.md']
    missing = ['%s:%d: %s' % (doc, line, name) for doc in tables for line, file, name in tables[doc] if not stands(file, name)]
    sources = {file: (repo / file).read_text(encoding='utf-8') for _, file, _ in table if file and file.endswith('.rt') and (repo / file).is_file()}
    missing += ['docs/CLAIMS.md:%d: %s: %s has no contract' % (line, file, name)
                for line, file, name in proved_by_the_check((repo / 'docs/CLAIMS.md').read_text(encoding='utf-8')) if file in sources and not has_contract(sources[file], name)]
    listed = {(file, name) for _, file, name in table}
    found, changes = list(unproved(listed)), list(edits(listed))
    missing += ['%s: %s %s' % (file, claim, why) for file, claim, lacking in found for why in lacking]
    missing += ['%s %s' % (file, why) for file, lacking in changes for why in lacking]
    print('\n'.join([*missing, '%d names, %d claims, %d edits, %d things missing' % (len(table), len(found), len(changes), len(missing))]))
    sees = finds_what_is_wrong()
    if not sees:
        print('this test does not find what is wrong in its own samples')
    sys.exit(bool(missing) or not all(tables.values()) or not found or not changes or not sees)


main()
