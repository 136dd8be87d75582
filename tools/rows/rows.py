#!/usr/bin/env python3
"""Writes the modules and interfaces of worked rows as antt values, from the IR texts in `ll` and the interface texts beside it, in the short
forms of `RowTexts`, `Devices` and `InterfaceTexts`.

`rows.py NAME ..` prints the values of these texts. Without a name each text is looked for in the file of crates/lx_generated_laws/specs that
has its value, and those that differ are told. Scripts and accounts are written by hand there; `rt check` there proves that the definitions
evaluate to them. Layout does not count, and `rt fmt` keeps it."""
import re, sys
from ir2antt import M, short
from if2antt import I

SPECS = '../../crates/lx_generated_laws/specs/'
FILES = {
    'Kernel': ['kernel', 'interface'], 'Slots': ['bad'], 'Instances': ['two'], 'SentPackets': ['race'], 'Mains': ['free', 'bent', 'stack', 'edge'],
    'Lone': ['math', 'clang', 'deep', 'stacks'], 'LentPackets': ['lent', 'borrowed'], 'Spanned': ['span'], 'Hooked': ['hook'],
    'Generated': ['gen'], 'GivenBack': ['neg'], 'References': ['refs', 'refs_kernel', 'refs_interface'],
}
OPS = re.compile(r'global (\(codes "\w+"\)) \(Named 0\) \(Group brackets\.Struct \(\(One Ptr\) ∷ \(One Ptr\) ∷ \[\]\) \(more \(Plain ([^()]+|\([^()]+\))\) \(more \(Plain ([^()]+|\([^()]+\))\) no_more\)\)\)')
DEV_OPS = 'record { name = (codes "struct.dev_ops"); ty = (Struct (also (One Ptr) (also (One Ptr) none))) }'
INIT = 'define (codes "init") [] ((codes "d") ∷ []) None (block (codes "0") (call (Some 0) (Some Ptr) 0 (arg Ptr (the_global 0) ∷ []) ∷ line (op.Ret None) ∷ []) ∷ [])'

def listed(xs, between=' ∷ '):
    return '[]' if not xs else '(' + between.join([*xs, '[]']) + ')'

def function(text):
    """A function: its head in one line, and each block in one."""
    text = short(text)
    if text == 'declare (codes "dev_register") (param [] Ptr ∷ []) (Some Ptr)': return 'dev_register'
    if text == INIT: return 'init'
    return text.replace(' (block (codes', '\n          (block (codes', 1).replace(' ∷ block (codes', '\n          ∷ block (codes')

def value(name):
    if name.endswith('interface'): return I(open(f'{name}.txt').read()).record()
    m = M(open(f'll/{name}.ll').read())
    if name == 'kernel': return m.record()  # it is unfolded in every row, and stands there without short forms
    functions = listed([function(f) for f in m.imports + m.funcs], '\n          ∷ ')
    globs = listed([OPS.sub(r'ops \1 \2 \3', short(g)) for g in m.globals])
    if m.types == [DEV_OPS]: text = f'device_module\n    {globs}\n    {functions}'
    elif not m.types and not m.globals: text = f'of_functions\n    {functions}'
    else: text = f'record {{\n      types = {listed(m.types)};\n      globals = {globs};\n      functions =\n          {functions[1:-1]};\n    }}'
    return re.sub(r'\((codes "[^"]*")\) ∷', r'\1 ∷', text)

def plain(text): return re.sub(r'[\s()]', '', text)

if __name__ == '__main__':
    for name in sys.argv[1:]: print(value(name))
    if not sys.argv[1:]:
        others = [(file, name) for file, names in FILES.items() for name in names if plain(value(name)) not in plain(open(f'{SPECS}{file}.antt').read())]
        for file, name in others: print(f'{file} does not have the value of {name}')
        sys.exit(1 if others else 0)
