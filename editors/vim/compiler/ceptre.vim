" Vim compiler file: :make has a world explained, and the quickfix list shows where and why it is refused.
" The script is g:ceptre_explain, or else the tools/explain of the folder of the world or of one above it.

if exists("current_compiler")
  finish
endif
let current_compiler = "ceptre"

let s:found = findfile("tools/explain", expand("%:p:h") . ";")
let s:explain = get(g:, "ceptre_explain", s:found == "" ? "tools/explain" : fnamemodify(s:found, ":p"))
execute "CompilerSet makeprg=" . escape(shellescape(s:explain), ' \|"') . "\\ %:S"

" A refusal begins with its place. What is likely and how it is mended belong to it.
CompilerSet errorformat=
      \%E%f:%l:%c:\ error:\ %m,
      \%W%f:%l:%c:\ warning:\ %m,
      \%E%f:%l:%c:\ %m,
      \%-C%\\s%#%\\d%#\ \|%.%#,
      \%+Clikely:\ %m,
      \%+Cmend:\ %m,
      \%+Csee:\ %m,
      \%+Cdid\ you\ mean\ %m,
      \%+Creason:\ %m,
      \%-G%.%#
