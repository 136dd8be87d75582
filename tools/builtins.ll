; What tools/module puts in the place of builtins of a compiler that have no effects: iN is the width, WIDTH and BYTES are its numbers.
define internal iN @builtin.abs.iN(iN %a, i1 %p) {
0:
  %n = icmp slt iN %a, 0
  %m = sub iN 0, %a
  %r = select i1 %n, iN %m, iN %a
  ret iN %r
}
define internal iN @builtin.umin.iN(iN %a, iN %b) {
0:
  %c = icmp ult iN %a, %b
  %r = select i1 %c, iN %a, iN %b
  ret iN %r
}
define internal iN @builtin.umax.iN(iN %a, iN %b) {
0:
  %c = icmp ugt iN %a, %b
  %r = select i1 %c, iN %a, iN %b
  ret iN %r
}
define internal iN @builtin.smin.iN(iN %a, iN %b) {
0:
  %c = icmp slt iN %a, %b
  %r = select i1 %c, iN %a, iN %b
  ret iN %r
}
define internal iN @builtin.smax.iN(iN %a, iN %b) {
0:
  %c = icmp sgt iN %a, %b
  %r = select i1 %c, iN %a, iN %b
  ret iN %r
}
define internal iN @builtin.uadd.sat.iN(iN %a, iN %b) {
0:
  %s = add iN %a, %b
  %c = icmp ult iN %s, %a
  %r = select i1 %c, iN -1, iN %s
  ret iN %r
}
define internal iN @builtin.usub.sat.iN(iN %a, iN %b) {
0:
  %s = sub iN %a, %b
  %c = icmp ult iN %a, %b
  %r = select i1 %c, iN 0, iN %s
  ret iN %r
}
define internal iN @builtin.fshl.iN(iN %a, iN %b, iN %c) {
0:
  %s = urem iN %c, WIDTH
  %t = sub iN WIDTH, %s
  %x = shl iN %a, %s
  %y = lshr iN %b, %t
  %z = icmp eq iN %s, 0
  %v = select i1 %z, iN 0, iN %y
  %r = or iN %x, %v
  ret iN %r
}
define internal iN @builtin.fshr.iN(iN %a, iN %b, iN %c) {
0:
  %s = urem iN %c, WIDTH
  %t = sub iN WIDTH, %s
  %x = shl iN %a, %t
  %y = lshr iN %b, %s
  %z = icmp eq iN %s, 0
  %v = select i1 %z, iN 0, iN %x
  %r = or iN %v, %y
  ret iN %r
}
define internal iN @builtin.ctpop.iN(iN %a) {
0:
  br label %next
next:
  %v = phi iN [ %a, %0 ], [ %w, %one ]
  %n = phi iN [ 0, %0 ], [ %m, %one ]
  %e = icmp eq iN %v, 0
  br i1 %e, label %end, label %one
one:
  %l = sub iN %v, 1
  %w = and iN %v, %l
  %m = add iN %n, 1
  br label %next
end:
  ret iN %n
}
define internal iN @builtin.ctlz.iN(iN %a, i1 %p) {
0:
  %z = icmp eq iN %a, 0
  br i1 %z, label %none, label %next
none:
  ret iN WIDTH
next:
  %v = phi iN [ %a, %0 ], [ %w, %one ]
  %n = phi iN [ 0, %0 ], [ %m, %one ]
  %e = icmp slt iN %v, 0
  br i1 %e, label %end, label %one
one:
  %w = shl iN %v, 1
  %m = add iN %n, 1
  br label %next
end:
  ret iN %n
}
define internal iN @builtin.cttz.iN(iN %a, i1 %p) {
0:
  %z = icmp eq iN %a, 0
  br i1 %z, label %none, label %next
none:
  ret iN WIDTH
next:
  %v = phi iN [ %a, %0 ], [ %w, %one ]
  %n = phi iN [ 0, %0 ], [ %m, %one ]
  %b = and iN %v, 1
  %e = icmp ne iN %b, 0
  br i1 %e, label %end, label %one
one:
  %w = lshr iN %v, 1
  %m = add iN %n, 1
  br label %next
end:
  ret iN %n
}
define internal iN @builtin.bswap.iN(iN %a) {
0:
  br label %next
next:
  %v = phi iN [ %a, %0 ], [ %w, %next ]
  %r = phi iN [ 0, %0 ], [ %t, %next ]
  %n = phi iN [ 0, %0 ], [ %m, %next ]
  %b = and iN %v, 255
  %s = shl iN %r, 8
  %t = or iN %s, %b
  %w = lshr iN %v, 8
  %m = add iN %n, 1
  %e = icmp eq iN %m, BYTES
  br i1 %e, label %end, label %next
end:
  ret iN %t
}
