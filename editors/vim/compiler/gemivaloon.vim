" Checks the file of the buffer by twelf-check; g:gemivaloon_check names another one than that on the PATH.
if exists('current_compiler')
  finish
endif
let current_compiler = 'gemivaloon'

let s:check = get(g:, 'gemivaloon_check', 'twelf-check')
let &l:makeprg = shellescape(s:check) . ' --format=gnu %:p:S'
" What is said while the program is built is no refusal; then come a refusal with its place, and one without.
setlocal errorformat=%-Gtwelf:\ %.%#,%-Gtwelf-check:\ %.%#,%f:%l:%c:\ %m,%f:\ %t%n\ %m
