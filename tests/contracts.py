#!/usr/bin/env python3
"""Holds each public function of the crates to what its contract must have: no `requires`, an `ensures`, and a lemma
that no second answer meets it, or else a row of docs/EXCEPTIONS.md that says why not. A function of a trait counts too, where
a type has it without ghost items. The lemma of `f` is `f_unique`, that of a method `T::f` is `f_unique` or `t_f_unique`; no
lemma serves two functions of a crate. Its type is a claim of the crate's specs/, `..Unique`, which says "if two answers meet
the contract they are the same", or names such a claim. A function that a public trait asks for has an `ensures`."""
import pathlib
import re
import sys

repo = pathlib.Path(__file__).resolve().parent.parent
ITEM = re.compile(r'^impl(?:<[^>]*>)? (?:(?P<trait>[\w:]+(?:<[^\n]*?>)?) for )?[&\[]?(?:mut )?(?P<type>\w+)|^pub trait (?P<law>\w+)|^(?P<end>\})|^ *(?P<pub>pub )?(?:extern "C" )?fn (?P<name>\w+)', re.M)
BODY = re.compile(r'^(?![^\n]*\b(?:requires|ensures)\b)[^\n]*\{(?: *|[^\n]*\} *)$|; *$', re.M)


def small(name):
    """A name of the code as the proofs spell it."""
    return re.sub(r'(?<=[a-z])(?=[A-Z])', '_', name).lower()


def contract(source, start):
    """The text of a function from its name to the line on which its body begins, or to its end where it has none."""
    end = BODY.search(source[start:])
    return source[start:start + end.start()] if end else source[start:]


def public_functions(source):
    """Each public function: its line, the type that it is a method of, its name and its contract. What stands in a comment is no part of it."""
    source = re.sub(r'//[^\n]*', '', source)
    holder, of_trait = '', False
    for found in ITEM.finditer(source):
        if found['type']:
            # A trait of which an impl states ghost items has its clauses in the trait.
            end = source.find('\n}', found.start())
            holder, of_trait = found['type'], bool(found['trait']) and re.search(r'^ *ghost (?!use\b)', source[found.start():end], re.M) is None
        elif found['law']:
            # What a public trait asks of its types: a law, which only has to say something.
            holder, of_trait = None, True
        elif found['end']:
            holder, of_trait = '', False
        elif found['pub'] or of_trait:
            yield source.count('\n', 0, found.start()) + 1, holder, found['name'], contract(source, found.start())


def lacks(holder, name, head, lemmas, excepted):
    """What the contract of a public function lacks. A lemma that it has is taken out of the set."""
    if not re.search(r'\bensures\b', head):
        yield 'it has no ensures'
    if holder is None:
        return
    if re.search(r'\brequires\b', head):
        yield 'it has a requires'
    wanted = [small(holder) + '_' + small(name) + '_unique'] * bool(holder) + [small(name) + '_unique']
    served = [lemma for lemma in wanted if lemma in lemmas][:1]
    lemmas.difference_update(served)
    if not served and (holder + '::' + name if holder else name) not in excepted:
        yield 'there is no %s, nor a row in docs/EXCEPTIONS.md' % ' or '.join(wanted)


def claims(specs):
    """The claims that say of two answers, or of two contents of a buffer, that they are the same, or that name such a claim."""
    found = re.findall(r'^abbrev pub (\S+Unique) : Type \d+\n\S+ =\s+(\S(?:.|\n(?! *\n))*)', specs, re.M)
    return {name for name, said in found if re.fullmatch(r'\S+Unique', said.strip()) or said.count('→') > 1 and '≡' in said or re.search(r'\bOne[A-Z]', said)}


def of_crate(sources, proofs, specs, excepted):
    """What each public function of a crate lacks. Those with a lemma of their type's name take theirs first."""
    stated = claims(specs)
    lemmas = {name for name, claim in re.findall(r'^pub (\S+_unique) : (\S+)$', proofs, re.M) if claim in stated}
    found = [(path, item) for path, source in sources for item in public_functions(source)]
    found.sort(key=lambda x: small(x[1][1] or '') + '_' + small(x[1][2]) + '_unique' not in lemmas)
    return [(path, line, name, list(lacks(holder, name, head, lemmas, excepted))) for path, (line, holder, name, head) in found]


def finds_what_is_wrong():
    """Eight functions that lack one thing each, and four that lack nothing."""
    wrong = '''pub fn a(n: u8) -> u8
    requires { n < 9 }
    ensures { A n result }
{
}
pub fn b(n: u8) -> u8 {
    n
}
impl Top {
    pub fn c(self) -> u8
        ensures { C result }
    {
    }
}
impl<'a> LowTop<'a> {
    pub fn c(self) -> u8
        ensures { C result }
    {
    }
    pub fn d(self) -> u8
        ensures low { D result }
        ensures high { result < 9 }
    {
    }
}
pub extern "C" fn e(n: u8) -> u8
    ensures { E n result }
{
}
pub fn f() -> u8
    ensures { F result }
{
}
impl std::default::Default for Low {
    ghost use A.B.{H};

    // ensures { H result }
    fn h() -> Low {}
}
impl Iterator for Low {
    ghost next_gives = { Gives };

    fn next(&mut self) -> Option<u8> {
    }
}
pub trait Walks {
    ghost left: { ℕ };

    fn k(self) -> u8;

    fn j(self)
        requires { small }
        ensures { J };
}
impl From<Option<u8>> for High {
    fn i(n: u8) -> High
        ensures { I n result }
    {
    }
}
pub fn g(n: u8) -> u8
    ensures { G n result }
    requires small {
        n < 9
    }
{
}
'''
    proofs = ''.join('pub %s_unique : %s\n' % (name, claim) for name, claim in (
        ('a', 'XUnique'), ('b', 'XUnique'), ('c', 'YUnique'), ('low_top_d', 'XUnique'), ('f', 'ZUnique'), ('g', 'XUnique'),
        ('h', 'XUnique'), ('high_i', 'XUnique')))
    specs = ("abbrev pub XUnique : Type 0\nXUnique = (n r r' : ℕ) → X n r → X n r' → r ≡ r'\n\n"
             'abbrev pub YUnique : Type 0\nYUnique = XUnique\n\nabbrev pub ZUnique : Type 0\nZUnique = Unit\n')
    return sorted((name, len(why)) for _, _, name, why in of_crate([('', wrong)], proofs, specs, set())) == [
        ('a', 1), ('b', 1), ('c', 0), ('c', 1), ('d', 0), ('e', 1), ('f', 1), ('g', 1), ('h', 1), ('i', 0), ('j', 0), ('k', 1)]


def main():
    rows = [row.split('|')[1] for row in (repo / 'docs' / 'EXCEPTIONS.md').read_text(encoding='utf-8').split('\n') if row.startswith('| `')]
    excepted = {name for row in rows for name in re.findall(r'`([^`]+)`', row)}
    count = bad = 0
    for crate in sorted((repo / 'crates').iterdir()):
        proofs = '\n'.join(p.read_text(encoding='utf-8') for p in sorted((crate / 'proofs').rglob('*.antt')))
        specs = '\n'.join(p.read_text(encoding='utf-8') for p in sorted((crate / 'specs').rglob('*.antt')))
        sources = [(p, p.read_text(encoding='utf-8')) for p in sorted((crate / 'src').rglob('*.rt'))]
        for path, line, name, why in of_crate(sources, proofs, specs, excepted):
            count += 1
            bad += bool(why)
            if why:
                print('%s:%d: %s: %s' % (path.relative_to(repo), line, name, '; '.join(why)))
    print('%d public functions, %d whose contract lacks something' % (count, bad))
    sees = finds_what_is_wrong()
    if not sees:
        print('this test does not find what is wrong in its own samples')
    sys.exit(bad != 0 or count == 0 or not sees)


main()
