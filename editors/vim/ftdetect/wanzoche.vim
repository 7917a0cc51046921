" A file that is named so, or whose first line is one of a declaration, a journal, attempts or a script.
autocmd BufNewFile,BufRead *.wanzoche setfiletype wanzoche
autocmd BufRead * if !did_filetype() && getline(1) =~# '^\%(resource \a\w* \%(cell\|tally\|queue\)\>\|journal 2 room \d\+$\|\d\+ \%(start\|use\|finish\) \|process \a\w*$\)'
      \ | setfiletype wanzoche | endif
