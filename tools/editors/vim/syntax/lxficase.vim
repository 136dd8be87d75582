" The case files of lxfi.
if exists("b:current_syntax")
  finish
endif
syntax match lxficaseComment "^#.*$"
syntax match lxficaseStatement "^\s*\(lxfi\s\+case\|kernel\|interface\|module\|thread\|call\)\>"
syntax match lxficaseRest "\(^\s*\(kernel\|interface\)\s\+\)\@<=\(none\|builtin\|file\)\>"
syntax match lxficaseFuel "\<fuel\>\ze\s\+\d\+\s*$"
syntax match lxficaseNumber "\s\zs-\?\(0x\x\+\|\d\+\)\ze\(\s\|$\)"
syntax match lxficaseTarget "\(^\s*call\s\+\)\@<=[a-z][a-z0-9_]*:\S\+"
syntax match lxficaseAddress "&[a-z][a-z0-9_]*:\S\+"
highlight default link lxficaseComment Comment
highlight default link lxficaseStatement Statement
highlight default link lxficaseRest Keyword
highlight default link lxficaseFuel Keyword
highlight default link lxficaseNumber Number
highlight default link lxficaseTarget Function
highlight default link lxficaseAddress Identifier
let b:current_syntax = "lxficase"
