" Other languages use these file extensions, too, so a line of the text decides.
autocmd BufRead,BufNewFile *.src if search('^\s*\%(cell\|var\)\s\+\h', 'nw') | setfiletype talft | endif
autocmd BufRead,BufNewFile *.asm if search('^\s*\%(node\s\+\d\+\|block\s\+\d\+\|entry\s\+\d\+\)', 'nw') | set filetype=talftasm | endif
