" Twelf signatures: how a comment is written, and what a name is.
if exists('b:did_ftplugin')
  finish
endif
let b:did_ftplugin = 1

setlocal commentstring=%\ %s comments=:%
" Names are made of all printable characters but white space and : . ( ) [ ] { } " %
setlocal iskeyword=@,33,35-36,38-39,42-45,47-57,59-90,92,94-122,124,126,192-255
let b:undo_ftplugin = 'setlocal commentstring< comments< iskeyword<'
