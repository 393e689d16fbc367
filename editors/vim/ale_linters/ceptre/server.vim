" The language server of Ceptre for ALE (Debian's vim-ale): refusals, hints, mends, definitions and completion.
" g:ceptre_server names it, where ceptre-server is not on the PATH.

function! ale_linters#ceptre#server#Root(buffer) abort
  let l:git = ale#path#FindNearestDirectory(a:buffer, '.git')
  return empty(l:git) ? fnamemodify(bufname(a:buffer), ':p:h') : fnamemodify(l:git, ':h:h')
endfunction

call ale#linter#Define('ceptre', {
\   'name': 'server',
\   'lsp': 'stdio',
\   'executable': {buffer -> get(g:, 'ceptre_server', 'ceptre-server')},
\   'command': '%e',
\   'project_root': function('ale_linters#ceptre#server#Root'),
\})
