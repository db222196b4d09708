" How Austral is commented and completed, which compiler `:make` calls, and that a file is laid out as it is written.
if exists('b:did_ftplugin')
  finish
endif
let b:did_ftplugin = 1

setlocal comments=:-- commentstring=--\ %s
setlocal expandtab shiftwidth=2 softtabstop=2
setlocal suffixesadd=.aui,.aum
compiler austral

augroup austral_format
  autocmd! BufWritePre <buffer> call austral#save()
augroup END

let b:undo_ftplugin = 'setlocal comments< commentstring< expandtab< shiftwidth< softtabstop< suffixesadd<'
      \ . ' makeprg< errorformat< | autocmd! austral_format BufWritePre <buffer>'
