" XRF scenarios and documents: *.xrf, and *.in and *.out whose first line that is not skipped is a header.
function! s:Look()
  for line in getline(1, 50)
    if line =~# '^\s*XRF\s\+[12]\s*$'
      setfiletype xrf
    endif
    if line !~# '^#' && line !~# '^\s*$'
      return
    endif
  endfor
endfunction
autocmd BufNewFile,BufRead *.xrf setfiletype xrf
autocmd BufRead *.in,*.out call s:Look()
