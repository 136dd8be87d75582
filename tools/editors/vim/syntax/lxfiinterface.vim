" The interfaces of lxfi, as statements (interface 1, interface 2) and as prototypes (lxfi_c 1).
if exists("b:current_syntax")
  finish
endif
if getline(1) =~# '^lxfi_c'
  syntax match lxfiinterfaceComment "//.*$"
  syntax region lxfiinterfaceComment start="/\*" end="\*/"
  syntax match lxfiinterfaceHead "\%1l^lxfi_c 1$"
  syntax keyword lxfiinterfaceStatement reftype iterator struct
  syntax keyword lxfiinterfaceType void bool _Bool char short int long unsigned signed size_t const
else
  syntax match lxfiinterfaceComment "#.*$"
  syntax match lxfiinterfaceHead "^interface [12]\>"
  syntax keyword lxfiinterfaceStatement reftype iterator slot field export
  syntax keyword lxfiinterfaceType void bool i8 u8 i16 u16 i32 u32 i64 ptr
  syntax match lxfiinterfaceStruct "%[-A-Za-z0-9$._]\+"
endif
syntax keyword lxfiinterfaceClause pre post principal
syntax keyword lxfiinterfaceAction check copy transfer lend if
syntax keyword lxfiinterfaceCapability write call ref
syntax keyword lxfiinterfaceValue return shared global load64
syntax match lxfiinterfaceNumber "\<\d\+\>"
highlight default link lxfiinterfaceComment Comment
highlight default link lxfiinterfaceHead PreProc
highlight default link lxfiinterfaceStatement Statement
highlight default link lxfiinterfaceType Type
highlight default link lxfiinterfaceStruct Identifier
highlight default link lxfiinterfaceClause Keyword
highlight default link lxfiinterfaceAction Function
highlight default link lxfiinterfaceCapability Special
highlight default link lxfiinterfaceValue Constant
highlight default link lxfiinterfaceNumber Number
let b:current_syntax = "lxfiinterface"
