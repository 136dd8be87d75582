#!/usr/bin/env python3
"""Writes IR text as an antt value of lx_ir's Module (a subset: what the worked rows use)."""
import re, sys

SC = {'i1': '(Int W1)', 'i8': '(Int W8)', 'i16': '(Int W16)', 'i32': 'i32', 'i64': 'i64', 'ptr': 'Ptr'}
W = {'i1': 'W1', 'i8': 'W8', 'i16': 'W16', 'i32': 'W32', 'i64': 'W64'}
BITS = {'i1': 1, 'i8': 8, 'i16': 16, 'i32': 32, 'i64': 64}
BIN = {'add': 'Add', 'sub': 'Sub', 'mul': 'Mul', 'udiv': 'UDiv', 'sdiv': 'SDiv', 'urem': 'URem', 'srem': 'SRem', 'and': 'And', 'or': 'Or', 'xor': 'Xor', 'shl': 'Shl', 'lshr': 'LShr', 'ashr': 'AShr'}
PRED = {'eq': 'Eq', 'ne': 'Ne', 'ugt': 'Ugt', 'uge': 'Uge', 'ult': 'Ult', 'ule': 'Ule', 'sgt': 'Sgt', 'sge': 'Sge', 'slt': 'Slt', 'sle': 'Sle'}
TOK = re.compile(r'[%@][A-Za-z0-9$._-]+|c?"[^"]*"|-?[0-9]+(?![A-Za-z])|[A-Za-z0-9$._]+|[=,(){}\[\]<>:!#]')

def lst(xs): return '(' + ''.join(x + ' ∷ ' for x in xs) + '[])'
def opt(x): return 'None' if x is None else f'(Some {x})'
def codes(s): return f'(codes "{s}")'
SHORT = [  # the short forms of RowTexts
    (re.compile(r'\(value\.Constant \(constant\.Number \(word W(32|64) (\d+)\)\)\)'), r'(n\1 \2)'),
    (re.compile(r'\(value\.Constant \(constant\.Pointer \(pointer\.Symbol \(symbol\.Global (\d+)\) 0\)\)\)'), r'(the_global \1)'),
    (re.compile(r'\(value\.Constant \(constant\.Pointer \(pointer\.Symbol \(symbol\.Function (\d+)\) 0\)\)\)'), r'(the_function \1)'),
    (re.compile(r'\(value\.Constant \(constant\.Pointer \(pointer\.Number (\d+)\)\)\)'), r'(address \1)'),
    (re.compile(r'\(value\.Constant \(constant\.Pointer pointer\.Null\)\)'), 'null'),
    (re.compile(r'\(constant\.Pointer \(pointer\.Symbol \(symbol\.Function (\d+)\) 0\)\)'), r'(to_function \1)'),
    (re.compile(r'\(constant\.Pointer pointer\.Null\)'), 'to_nothing'),
    (re.compile(r'line \(op\.Call (None|\(Some \d+\)) (None|\(Some \w+\)) \(callee\.Symbol \(symbol\.Function (\d+)\)\) '), r'(call \1 \2 \3 '),
    (re.compile(r'\(\[\]\)'), '[]'),
]
def short(s):
    for form, by in SHORT: s = form.sub(by, s)
    return re.sub(r'\((call (?:[^()]|\((?:[^()]|\((?:[^()]|\([^()]*\))*\))*\))*)\)', r'\1', s)

class M:
    def __init__(self, text):
        self.types, self.tnames, self.globals, self.imports, self.funcs = [], [], [], [], []
        lines = [l.strip() for l in text.strip().split('\n')]
        # names first
        self.gnames, imp, defs = [], [], []
        for l in lines:
            t = TOK.findall(l)
            if not t: continue
            if t[0] == 'declare': imp.append(next(x for x in t if x[0] == '@')[1:])
            elif t[0] == 'define': defs.append(next(x for x in t if x[0] == '@')[1:])
            elif t[0][0] == '@': self.gnames.append(t[0][1:])
            elif t[0][0] == '%' and len(t) > 2 and t[2] == 'type': self.tnames.append(t[0][1:])
        self.fnames = imp + defs
        self.nimp = imp
        i = 0
        while i < len(lines):
            self.t = TOK.findall(lines[i]); self.p = 0
            t = self.t
            if not t: i += 1; continue
            if t[0] == 'declare':
                self.p = 1; r = self.ret(); n = self.eat()[1:]; self.want('(')
                ps = []
                while self.peek() != ')':
                    ps.append(SC[self.eat()])
                    if self.peek() == ',': self.eat()
                self.imports.append(f'declare {codes(n)} {lst([f"param [] {s}" for s in ps])} {opt(r)}')
            elif t[0] == 'define':
                self.p = 1; r = self.ret(); n = self.eat()[1:]; self.want('(')
                ps = []
                while self.peek() != ')':
                    s = SC[self.eat()]; ps.append((self.eat()[1:], s))
                    if self.peek() == ',': self.eat()
                j = i + 1
                while lines[j] != '}': j += 1
                self.funcs.append(self.func(n, r, ps, lines[i+1:j])); i = j
            elif t[0][0] == '@':
                self.p = 2; k = self.eat(); ty = self.ty(); init = self.init(ty)
                g = f'global {codes(t[0][1:])} {ty[0]} {init}'
                self.globals.append(g if k == 'global' else f'record ({g}) {{ constant = true }}')
            elif t[0][0] == '%':
                self.p = 3; self.types.append(f'record {{ name = {codes(t[0][1:])}; ty = {self.ty()[0]} }}')
            i += 1
    def eat(self): self.p += 1; return self.t[self.p-1]
    def peek(self): return self.t[self.p] if self.p < len(self.t) else None
    def want(self, x): y = self.eat(); assert y == x, (x, y, self.t)
    def ret(self):
        x = self.eat(); return None if x == 'void' else SC[x]
    def ty(self):
        x = self.eat()
        if x in SC: return (f'(One {SC[x]})', x, None)
        if x[0] == '%': return (f'(Named {self.tnames.index(x[1:])})', None, None)
        if x == '[':
            n = self.eat(); self.want('x'); t = self.ty(); self.want(']'); return (f'(Array {n} {t[0]})', None, None)
        if x == '{':
            fs = []
            while self.peek() != '}':
                fs.append(self.ty()[0])
                if self.peek() == ',': self.eat()
            self.eat()
            return ('(Struct ' + ''.join(f'(also {f} ' for f in fs) + 'none' + ')' * len(fs) + ')', None, None)
        raise Exception(x)
    def const(self, s):
        """constant at scalar s, as an antt Constant"""
        x = self.eat()
        if x == 'null': return '(constant.Pointer pointer.Null)'
        if x in ('true', 'false'): return f'(constant.Truth {x})'
        if x == 'inttoptr':
            self.want('('); self.want('i64'); n = int(self.eat()); self.want('to'); self.want('ptr'); self.want(')')
            return f'(constant.Pointer (pointer.Number {n % 2**64}))'
        if x[0] == '@':
            n = x[1:]
            sym = f'symbol.Global {self.gnames.index(n)}' if n in self.gnames else f'symbol.Function {self.fnames.index(n)}'
            return f'(constant.Pointer (pointer.Symbol ({sym}) 0))'
        return f'(constant.Number (word {W[s]} {int(x) % 2**BITS[s]}))'
    def init(self, ty):
        x = self.peek()
        if x == 'zeroinitializer': self.eat(); return '(Empty Zero)'
        if x == '{':
            self.eat(); ts, vs = [], []
            while self.peek() != '}':
                t = self.ty(); ts.append(t[0]); vs.append(self.init(t))
                if self.peek() == ',': self.eat()
            self.eat()
            return f'(Group brackets.Struct {lst(ts)} ' + ''.join(f'(more {v} ' for v in vs) + 'no_more' + ')' * len(vs) + ')'
        if x[0] == 'c' and x[1] == '"':
            self.eat(); raw = x[2:-1]; bs = []; k = 0
            while k < len(raw):
                if raw[k] == '\\': bs.append(int(raw[k+1:k+3], 16)); k += 3
                else: bs.append(ord(raw[k])); k += 1
            return f'(Bytes {lst([str(b) for b in bs])})'
        return f'(Plain {self.const(ty[1])})'
    def val(self, s):
        if self.peek()[0] == '%': return f'(reg {self.regs[self.eat()[1:]]})'
        return f'(value.Constant {self.const(s)})'
    def lab(self):
        self.want('label'); return codes(self.eat()[1:])
    def args(self):
        out = []; self.want('(')
        while self.peek() != ')':
            s = self.eat(); out.append(f'arg {SC[s]} {self.val(s)}')
            if self.peek() == ',': self.eat()
        self.eat(); return lst(out)
    def func(self, name, r, ps, body):
        self.regs = {n: k for k, (n, s) in enumerate(ps)}
        loc = []
        for l in body:
            t = TOK.findall(l)
            if t and t[0][0] == '%' and t[1] == '=': self.regs[t[0][1:]] = len(ps) + len(loc); loc.append(t[0][1:])
        blocks, cur, label = [], [], '0'
        for l in body:
            if not l: continue
            if l.endswith(':'):
                if cur or blocks: blocks.append((label, cur))
                label, cur = l[:-1], []
                continue
            self.t = TOK.findall(l); self.p = 0
            cur.append(self.instr())
        blocks.append((label, cur))
        bs = lst([f'block {codes(n)} {lst(ins)}' for n, ins in blocks])
        return f'define {codes(name)} {lst([f"param {codes(n)} {s}" for n, s in ps])} {lst([codes(n) for n in loc])} {opt(r)} {bs}'
    def instr(self):
        to = None
        if self.peek()[0] == '%': to = self.regs[self.eat()[1:]]; self.want('=')
        w = self.eat()
        if w in BIN:
            s = self.eat(); a = self.val(s); self.want(','); b = self.val(s)
            return f'line (op.Binary {to} binop.{BIN[w]} {SC[s]} {a} {b})'
        if w == 'icmp':
            p = self.eat(); s = self.eat(); a = self.val(s); self.want(','); b = self.val(s)
            return f'line (op.Compare {to} pred.{PRED[p]} {SC[s]} {a} {b})'
        if w in ('inttoptr', 'ptrtoint', 'zext', 'sext', 'trunc'):
            s = self.eat(); a = self.val(s); self.want('to'); u = self.eat()
            how = {'inttoptr': 'IntToPtr', 'ptrtoint': 'PtrToInt', 'zext': 'ZExt', 'sext': 'SExt', 'trunc': 'Trunc'}[w]
            return f'line (op.Convert {to} convert.{how} {SC[s]} {a} {SC[u]})'
        if w == 'alloca': return f'line (op.Alloca {to} {self.ty()[0]})'
        if w == 'load':
            s = self.eat(); self.want(','); self.want('ptr'); return f'line (op.Load {to} {SC[s]} {self.val("ptr")})'
        if w == 'store':
            s = self.eat(); v = self.val(s); self.want(','); self.want('ptr'); at = self.val('ptr')
            return f'line (op.Store {SC[s]} {v} {at})'
        if w == 'getelementptr':
            t = self.ty()[0]; self.want(','); self.want('ptr'); b = self.val('ptr'); idx = []
            while self.peek() == ',':
                self.eat(); s = self.eat(); idx.append(f'arg {SC[s]} {self.val(s)}')
            return f'line (op.GetElementPtr {to} {t} {b} {lst(idx)})'
        if w == 'phi':
            s = self.eat(); es = []
            while True:
                self.want('['); v = self.val(s); self.want(','); es.append(f'record {{ value = {v}; label = {codes(self.eat()[1:])} }}'); self.want(']')
                if self.peek() != ',': break
                self.eat()
            return f'line (op.Phi {to} {SC[s]} {lst(es)})'
        if w == 'call':
            r = self.ret(); f = self.eat()
            if f.startswith('@llvm.mem'):
                self.want('('); self.want('ptr'); d = self.val('ptr'); self.want(','); s = self.eat(); a = self.val(s); self.want(','); n = self.eat(); c = self.val(n)
                form = f'op.FillBlock {d} {a}' if 'memset' in f else f'op.CopyBlock {"true" if "move" in f else "false"} {d} {a}'
                return f'line ({form} (arg {SC[n]} {c}))'
            num = self.fnames.index(f[1:]) if f[0] == '@' else None
            c = f'callee.Register {self.regs[f[1:]]}' if f[0] == '%' else f'callee.Symbol (symbol.Function {num})'
            return f'line (op.Call {opt(to)} {opt(r)} ({c}) {self.args()})'
        if w == 'ret':
            s = self.eat()
            return 'line (op.Ret None)' if s == 'void' else f'line (op.Ret (Some (arg {SC[s]} {self.val(s)})))'
        if w == 'br':
            if self.peek() == 'label': return f'line (op.Jump {self.lab()})'
            self.want('i1'); v = self.val('i1'); self.want(','); a = self.lab(); self.want(','); return f'line (op.Branch {v} {a} {self.lab()})'
        if w == 'unreachable': return 'line op.Unreachable'
        raise Exception(w)
    def record(self):
        return f'record {{\n      types = {lst(self.types)};\n      globals = {lst(self.globals)};\n      functions =\n        ' + '\n        ∷ '.join(self.imports + self.funcs + ['[]']) + ';\n    }'
