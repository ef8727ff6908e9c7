" Writes the name of the syntax group of each character, a line of numbers and name each, to the file $REC_GROUPS.
let s:found = []
for s:line in range(1, line('$'))
  for s:column in range(1, len(getline(s:line)))
    call add(s:found, s:line . ' ' . s:column . ' ' . synIDattr(synID(s:line, s:column, 1), 'name'))
  endfor
endfor
call writefile(s:found, $REC_GROUPS)
quitall!
