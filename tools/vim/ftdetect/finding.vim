" A finding is written in a file finding.txt. Vim takes that for plain text by itself, so the type is set and not proposed.
autocmd BufNewFile,BufRead finding.txt set filetype=finding
