" `:make FILE ..` checks these files; without a file `:make %` checks the one that is edited. A refusal with a place
" is jumped to.
if exists('current_compiler')
  finish
endif
let current_compiler = 'austral'

let s:program = get(g:, 'austral_program', 'austral')
execute 'CompilerSet makeprg=' . escape(s:program . ' check $*', ' \|"')
CompilerSet errorformat=%f:%l:%c:\ %m,%-Gaccepted,%+G%m
