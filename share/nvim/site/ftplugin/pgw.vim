" Grammar files of pgw.
setlocal commentstring=#\ %s
setlocal comments=:#
let b:undo_ftplugin = 'setlocal commentstring< comments<'
