" Interfaces and bodies of Austral.
autocmd BufNewFile,BufRead *.aui,*.aum setfiletype austral
