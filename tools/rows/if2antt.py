"""Writes an interface text as an antt value of lx_annot's Interface, in the short forms of `InterfaceTexts`."""
import re
from ir2antt import lst, opt, codes
TOK = re.compile(r'%?[A-Za-z_$.][A-Za-z0-9_$.]*|[0-9]+|<<|>>|==|!=|<=|>=|&&|\|\||[:(){},;+\-*&|^<>!]')
TY = {'void': 'Void', 'bool': 'Bool', 'i8': 'I8', 'u8': 'U8', 'i16': 'I16', 'u16': 'U16', 'i32': 'I32', 'u32': 'U32', 'i64': 'I64', 'ptr': 'Ptr'}
LEV = [{'||': 'Either'}, {'&&': 'Both'}, {'|': 'Or'}, {'^': 'Xor'}, {'&': 'And'}, {'==': 'Equal', '!=': 'Differs'},
       {'<': 'Less', '<=': 'AtMost', '>': 'Greater', '>=': 'AtLeast'}, {'<<': 'ShiftLeft', '>>': 'ShiftRight'}, {'+': 'Add', '-': 'Sub'}, {'*': 'Mul'}]
class I:
    def __init__(self, text):
        self.refs, self.its, self.slots, self.fields, self.exports = [], [], [], [], []
        self.refn, self.itn, self.slotn = [], [], []
        for k, l in enumerate(text.split('\n')):
            self.t = TOK.findall(l.split('#')[0]); self.p = 0; self.line = k + 1
            if not self.t or self.t[0] == 'interface': continue
            w = self.eat()
            if w == 'reftype': n = self.eat(); self.refn.append(n)
            elif w == 'iterator':
                n = self.eat(); self.want('('); self.params = [(self.eat(), 'ptr')]; self.want(')'); self.want('{'); items = []
                self.ret = 'void'
                while True:
                    c = None
                    if self.peek() == 'if': self.eat(); self.want('('); c = self.expr(); self.want(')')
                    k2 = self.eat()
                    if k2 == 'write': a = self.expr(); self.want(','); s = f'spec.Write {a} {self.expr()}'
                    elif k2 == 'call': s = f'spec.Call {self.expr()}'
                    else: r = self.eat(); self.want(','); s = f'spec.Ref {self.refn.index(r)} {self.expr()}'
                    items.append(f'record {{ cond = {opt(c)}; cap = {s} }}')
                    if self.eat() == '}': break
                self.its.append(f'record {{ name = {codes(n)}; items = {lst(items)}; line = {self.line} }}'); self.itn.append(n)
            elif w == 'field':
                n = self.eat()[1:]; i = self.eat(); self.want(':'); s = self.eat()
                self.fields.append(f'field {codes(n)} {i} {self.slotn.index(s)} {self.line}')
            else:
                n = self.eat(); self.want(':'); self.ret = self.eat(); self.want('('); self.params = []
                while self.peek() != ')':
                    ty = self.eat(); self.params.append((self.eat(), ty))
                    if self.peek() == ',': self.eat()
                self.eat(); pr, pre, post = None, [], []
                while self.peek():
                    c = self.eat(); self.want('(')
                    if c == 'principal':
                        if self.peek() in ('shared', 'global'): pr = 'who.' + self.eat().capitalize()
                        else: pr = f'(who.Value {self.expr()})'
                    elif c == 'pre': pre.append(self.action())
                    else: post.append(self.action())
                    self.want(')')
                ps = lst([f'parameter {codes(a)} ty.{TY[b]}' for a, b in self.params])
                r = f'{w} {codes(n)} {ps} ty.{TY[self.ret]}\n          (annotated {opt(pr)} {lst(pre)} {lst(post)}) {self.line}'
                if w == 'slot': self.slots.append(r); self.slotn.append(n)
                else: self.exports.append(r)
    def eat(self): self.p += 1; return self.t[self.p-1]
    def peek(self): return self.t[self.p] if self.p < len(self.t) else None
    def want(self, x): y = self.eat(); assert y == x, (x, y, self.t)
    def action(self):
        cs = []
        while self.peek() == 'if': self.eat(); self.want('('); cs.append(self.expr()); self.want(')')
        d = self.eat().capitalize(); self.want('('); k = self.eat()
        if k == 'write': self.want(','); a = self.expr(); self.want(','); s = f'(spec.Write {a} {self.expr()})'
        elif k == 'call': self.want(','); s = f'(spec.Call {self.expr()})'
        elif k == 'ref': self.want('('); r = self.eat(); self.want(')'); self.want(','); s = f'(spec.Ref {self.refn.index(r)} {self.expr()})'
        else: self.want('('); s = f'(spec.Each {self.itn.index(k)} {self.expr()})'; self.want(')')
        self.want(')')
        a = f'action.{d} {s}'
        for c in reversed(cs): a = f'action.If {c} ({a})'
        return a
    def expr(self, lev=0):
        if lev == len(LEV): return self.un()
        a = self.expr(lev + 1)
        while self.peek() in LEV[lev]: m = LEV[lev][self.eat()]; a = f'(expr.Binary mark.{m} {a} {self.expr(lev + 1)})'
        return a
    def un(self):
        if self.peek() == '-': self.eat(); return f'(expr.Unary mark.Negate {self.un()})'
        if self.peek() == '!': self.eat(); return f'(expr.Unary mark.Invert {self.un()})'
        x = self.eat()
        if x == '(': e = self.expr(); self.want(')'); return e
        if x == 'load64': self.want('('); e = self.expr(); self.want(')'); return f'(expr.Load64 {e})'
        if x == 'return': return f'(expr.Return ty.{TY[self.ret]})'
        if x.isdigit(): return f'(expr.Number {x})'
        k = [a for a, b in self.params].index(x); return f'(expr.Param {k} ty.{TY[self.params[k][1]]})'
    def record(self):
        j = lambda xs: '\n        ' + '\n        ∷ '.join(xs + ['[]'])
        return f'record {{\n      reftypes = {lst([codes(n) for n in self.refn])};\n      iterators ={j(self.its)};\n      slots ={j(self.slots)};\n      fields ={j(self.fields)};\n      exports ={j(self.exports)};\n    }}'
