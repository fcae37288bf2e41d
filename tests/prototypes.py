#!/usr/bin/env python3
"""Holds the three lists of the C entry points to each other: what crates/ihex/src exports, what include/ihex.h declares and
what rust/sys declares. Nothing else does: a linker knows names only. Each function has the same parameters in all
three, in the same order, with the same names, widths and direction, and the same result."""
import pathlib
import re
import sys

repo = pathlib.Path(__file__).resolve().parent.parent
WIDTHS = {'uint8_t': 'u8', 'uint16_t': 'u16', 'uint32_t': 'u32', 'uint64_t': 'u64', 'size_t': 'usize', 'void': 'u8'}
# A name that one of the languages keeps for itself.
RENAMED = {'type': 'kind'}


def plain(name):
    return RENAMED.get(name, name)


def parts(text):
    return [part.strip() for part in text.split(',') if part.strip()]


def of_rattle(source):
    """Each exported name to (parameters, result). A slice is a pointer and a length."""
    found = {}
    for name, inside, result in re.findall(r'^#\[unsafe\(no_mangle\)\]\npub extern "C" fn (\w+)(?:<[^>]*>)?\(([^)]*)\)(?: -> (\w+))?', source, re.M):
        found[name] = []
        for part in parts(inside):
            label, kind = (x.strip() for x in part.split(':'))
            way, wide = re.fullmatch(r'(&mut |&|)(\[?\w+\]?)', re.sub(r"'\w+ ", '', kind)).groups()
            star = {'&mut ': '*mut ', '&': '*const ', '': ''}[way]
            found[name] += [(plain(label), star + wide.strip('[]'))] + [(plain(label) + '_len', 'usize')] * wide.startswith('[')
        found[name] = (found[name], result)
    return found


def of_c(header):
    text = re.sub(r'(?s)/\*.*?\*/', ' ', header)
    text = re.sub(r'(?m)^#.*$', ' ', text)
    text = re.sub(r'static inline[^{]*\{[^}]*\}', ' ', text)
    found = {}
    for result, name, inside in re.findall(r'(\w+)\s+(ihex_\w+)\(([^)]*)\)\s*;', text):
        found[name] = ([], WIDTHS[result])
        for part in parts(inside):
            const, wide, star, label = re.fullmatch(r'(const )?(\w+)\s*(\*?)\s*(\w+)', part).groups()
            found[name][0].append((plain(label), ('*const ' if const else '*mut ') * bool(star) + WIDTHS[wide]))
    return found


def of_rust(source):
    inside = re.search(r'extern "C" \{(.*?)\n    \}', source, re.S).group(1)
    found = {}
    for name, args, result in re.findall(r'pub fn (\w+)\(([^)]*)\) -> (\w+);', inside):
        found[name] = ([(plain(label.strip()), kind.strip()) for label, kind in (part.split(':') for part in parts(args))], result)
    return found


def differences(lists):
    """Where the lists differ from the first one, a line each."""
    (first, ours), *others = lists
    for place, theirs in others:
        for name in sorted(ours.keys() | theirs.keys()):
            if ours.get(name) != theirs.get(name):
                yield '%s: %s has %s, %s has %s' % (name, first, ours.get(name), place, theirs.get(name))


def finds_what_is_wrong():
    """One function in three languages, and a header with each mistake that a hand can make."""
    export = '#[unsafe(no_mangle)]\npub extern "C" fn ihex_f(\n    s: &[u8],\n    out: &mut [u8],\n    kind: u8,\n    n: &mut usize,\n) -> u32\n    ensures'
    rattle = of_rattle(export)
    header = 'uint32_t ihex_f(const uint8_t *s, size_t s_len,\n  uint8_t *out, size_t out_len, uint8_t type, size_t *n);'
    rust = of_rust('extern "C" {\n        pub fn ihex_f(s: *const u8, s_len: usize, out: *mut u8, out_len: usize, kind: u8, n: *mut usize) -> u32;\n    }')
    slips = [('const uint8_t *s', 'uint8_t *s'), ('size_t *n', 'uint64_t *n'), ('uint32_t ihex_f', 'uint8_t ihex_f'),
             ('s_len', 'length'), ('uint8_t type, size_t *n', 'size_t *n, uint8_t type'), ('ihex_f', 'ihex_g'), (', size_t *n', '')]
    same = not list(differences([('a', rattle), ('b', of_c(header)), ('c', rust)]))
    return same and not of_rattle(export.partition('\n')[2]) and all(list(differences([('a', rattle), ('b', of_c(header.replace(*slip, 1)))])) for slip in slips)


def main():
    read = lambda path: (repo / path).read_text(encoding='utf-8')
    lists = [('crates/ihex/src', of_rattle(read('crates/ihex/src/lib.rt'))), ('include/ihex.h', of_c(read('include/ihex.h'))),
             ('rust/sys', of_rust(read('rust/sys/src/lib.rs')))]
    wrong = list(differences(lists))
    print('\n'.join([*wrong, '%d entry points, %d differences' % (len(lists[0][1]), len(wrong))]))
    sees = finds_what_is_wrong()
    if not sees:
        print('this test does not find what is wrong in its own samples')
    sys.exit(bool(wrong) or not lists[0][1] or not sees)


main()
