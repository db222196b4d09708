" The layout of a file, by the compiler's command `format`.

" Lays the buffer out. It stays as it is where it can't be read, or where no compiler is there.
function! austral#format() abort
  let program = get(g:, 'austral_program', 'austral')
  if !executable(program)
    return
  endif
  let file = tempname() . '.aum'
  call writefile(getline(1, '$'), file)
  let lines = systemlist(shellescape(program) . ' format ' . shellescape(file) . ' 2>/dev/null')
  let failed = v:shell_error
  call delete(file)
  if failed || lines ==# getline(1, '$')
    return
  endif
  let view = winsaveview()
  silent keepjumps call setline(1, lines)
  if line('$') > len(lines)
    silent execute 'keepjumps ' . (len(lines) + 1) . ',$delete _'
  endif
  call winrestview(view)
endfunction

" The same before it is written, unless `g:austral_format` is 0.
function! austral#save() abort
  if get(g:, 'austral_format', 1)
    call austral#format()
  endif
endfunction
