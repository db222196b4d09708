" Indents Austral: one step for each declaration, block and arm that is open. It goes over the lines from the last
" declaration of the module on and keeps what is open, as editors/server/austral_layout.py does.
if exists('b:did_indent')
  finish
endif
let b:did_indent = 1

setlocal indentexpr=AustralIndent(v:lnum) autoindent nosmartindent
setlocal indentkeys=!^F,o,O,0=end,0=else,0=when,0=case,0=then,0=do,0=is,0=),0],0}
let b:undo_indent = 'setlocal indentexpr< autoindent< smartindent< indentkeys<'

if exists('*AustralIndent')
  finish
endif

let s:top = '^\s*\%(import\|module\|constant\|type\|record\|union\|function\|typeclass\|instance\|generic\)\>'

function! s:InDocstring(line) abort
  return synIDattr(synID(a:line, 1, 1), 'name') ==# 'australDocstring' && getline(a:line) !~# '^\s*"""'
endfunction

" The words of a line and its signs that matter, without texts and comments.
function! s:Words(line) abort
  if s:InDocstring(a:line)
    return []
  endif
  let text = substitute(getline(a:line), '"""\_.\{-}\%("""\|$\)', '', 'g')
  let text = substitute(text, '"\%(\\.\|[^"\\]\)*"', '1', 'g')
  let text = substitute(text, '--.*', '', '')
  let words = []
  call substitute(text, '\w\+\|[^ \t]', '\=add(words, submatch(0))', 'g')
  return words
endfunction

function! s:Top(state, kind) abort
  return !empty(a:state.open) && a:state.open[-1].kind ==# a:kind
endfunction

function! s:Close(state, kind) abort
  if s:Top(a:state, a:kind)
    call remove(a:state.open, -1)
  endif
endfunction

function! s:Done(state) abort
  call extend(a:state, {'first': '', 'choices': [], 'ends': 0})
endfunction

function! s:Push(state, kind) abort
  call add(a:state.open, {'kind': a:kind, 'indent': a:state.indent})
  call s:Done(a:state)
endfunction

" The first word of a declaration, a statement or a part of one.
function! s:Begin(state, word) abort
  if a:word ==# 'end'
    let a:state.ends = 1
  elseif a:word ==# ';'
    call s:Done(a:state)
  elseif has_key({'else': 1, 'when': 1, 'case': 1}, a:word)
    call s:Close(a:state, {'else': 'block', 'when': 'arm', 'case': 'field'}[a:word])
  endif
endfunction

" A word behind `end`.
function! s:End(state, word) abort
  if a:word ==# 'case'
    call s:Close(a:state, 'arm')
    call s:Close(a:state, 'case')
  elseif a:word =~# '^\%(if\|while\|for\|borrow\)$'
    call s:Close(a:state, 'block')
  elseif a:word ==# 'module'
    let a:state.open = []
  elseif a:word ==# ';' && a:state.first ==# 'end'
    call s:Close(a:state, 'field')
    call s:Close(a:state, 'declaration')
  endif
  if a:word ==# ';' || a:word ==# '.'
    call s:Done(a:state)
  else
    let a:state.first = 'ended'
  endif
endfunction

" Any other word.
function! s:GoOn(state, word) abort
  let choice = get(a:state.choices, -1, '')
  if a:word ==# 'if' && a:state.first ==# 'else'
    let a:state.first = 'else if'
  elseif a:word ==# 'if'
    call add(a:state.choices, 'if')
  elseif a:word ==# 'then' && choice ==# 'if'
    let a:state.choices[-1] = 'then'
  elseif a:word ==# 'else' && choice ==# 'then'
    call remove(a:state.choices, -1)
  elseif a:word ==# 'is'
    call s:Push(a:state, get({'module': 'module', 'case': 'field'}, a:state.first, 'declaration'))
  elseif a:word ==# 'then'
    call s:Push(a:state, 'block')
  elseif a:word ==# 'do'
    call s:Push(a:state, a:state.first ==# 'when' ? 'arm' : 'block')
  elseif a:word ==# 'of'
    call s:Push(a:state, 'case')
  elseif a:word ==# ';'
    call s:Done(a:state)
  endif
endfunction

function! s:Take(state, word, indent) abort
  if a:state.first ==# 'else' && a:word !=# 'if'
    call s:Push(a:state, 'block')
  endif
  if a:state.first ==# ''
    let a:state.first = a:word
    let a:state.indent = a:indent
    call s:Begin(a:state, a:word)
  elseif a:state.ends
    call s:End(a:state, a:word)
  else
    call s:GoOn(a:state, a:word)
  endif
endfunction

" How far a line is indented that begins with `end` and this word.
function! s:OfEnd(state, word) abort
  let wanted = get({'case': 'case', 'module': 'module'}, a:word, '')
  if wanted ==# ''
    let wanted = s:Top(a:state, 'arm') ? 'case' : s:Top(a:state, 'field') ? 'declaration' : ''
  endif
  for one in reverse(copy(a:state.open))
    if wanted ==# '' || one.kind ==# wanted
      return one.indent
    endif
  endfor
  return 0
endfunction

function! s:Of(state, words) abort
  let word = get(a:words, 0, '')
  if a:state.first ==# 'else' && word !=# 'if'
    return a:state.indent + shiftwidth()
  elseif a:state.first !=# ''
    let closes = word =~# '^\%([])}]\|is\|then\|do\|of\)$' || a:state.first ==# 'generic' || a:state.ends
    return a:state.indent + (closes ? 0 : shiftwidth())
  elseif word ==# 'end'
    return s:OfEnd(a:state, get(a:words, 1, ''))
  elseif empty(a:state.open)
    return 0
  elseif word ==# 'else' || word ==# 'when' && s:Top(a:state, 'arm') || word ==# 'case' && s:Top(a:state, 'field')
    return a:state.open[-1].indent
  endif
  return a:state.open[-1].indent + shiftwidth()
endfunction

function! AustralIndent(line) abort
  if s:InDocstring(a:line)
    return -1
  endif
  let from = a:line - 1
  while from > 1 && (getline(from) !~# s:top || s:InDocstring(from))
    let from -= 1
  endwhile
  " `generic [..]` may stand on a line of its own before what it belongs to.
  while from > 1 && getline(from - 1) =~# '^\s*generic\>[^;]*$' && getline(from - 1) !~# '\<is\>'
    let from -= 1
  endwhile
  let state = {'open': [], 'indent': 0}
  call s:Done(state)
  if from >= 1 && getline(from) =~# s:top && getline(from) !~# '^\s*\%(import\|module\)\>'
    call add(state.open, {'kind': 'module', 'indent': 0})
  endif
  for number in range(max([from, 1]), a:line - 1)
    for word in s:Words(number)
      call s:Take(state, word, indent(number))
    endfor
  endfor
  return s:Of(state, s:Words(a:line))
endfunction
