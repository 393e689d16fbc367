" Vim settings for worlds in Ceptre: comments, names as words, and :make by tools/explain.

if exists("b:did_ftplugin")
  finish
endif
let b:did_ftplugin = 1

setlocal commentstring=%\ %s
setlocal comments=:%
setlocal iskeyword=@,48-57,_,/,39
let b:undo_ftplugin = "setlocal commentstring< comments< iskeyword< makeprg< errorformat<"

compiler ceptre
