-- What tests/editor/neovim has Neovim do: opens a grammar file, waits for what is wrong with it, mends it, by itself and by the change that the server has, and
-- prints what it saw as a line of JSON each.
local program, name = vim.env.PROGRAM, vim.env.GRAMMAR

local function say(value)
    io.stdout:write(vim.fn.json_encode(value), '\n')
end

local function wait(what, holds)
    if not vim.wait(20000, holds, 20) then
        say({ failed = what })
        vim.cmd('cquit 1')
    end
end

local function shown()
    local found = {}
    for _, one in ipairs(vim.diagnostic.get(0)) do
        local told = one.user_data and one.user_data.lsp or {}
        local page = told.codeDescription and vim.fn.fnamemodify(told.codeDescription.href, ':t')
        table.insert(found, { lnum = one.lnum, col = one.col, end_col = one.end_col, severity = one.severity, code = told.code, message = one.message, page = page })
    end
    return found
end

-- The groups of what is highlighted, from left to right.
local function groups()
    local found = {}
    for line = 1, vim.fn.line('$') do
        local before = ''
        for column = 1, #vim.fn.getline(line) do
            local group = vim.fn.synIDattr(vim.fn.synID(line, column, 1), 'name')
            if group ~= before and group ~= '' then
                table.insert(found, group)
            end
            before = group
        end
    end
    return found
end

vim.cmd('edit ' .. vim.fn.fnameescape(name))
say({ filetype = vim.bo.filetype, commentstring = vim.bo.commentstring })
local client = require('pgw').start({ cmd = { program, 'lsp' } })
wait('findings', function() return #vim.diagnostic.get(0) > 0 end)
say(shown())
vim.api.nvim_buf_set_lines(0, 0, -1, false, { '# é😀', 'start a; a = many1(satisfy(digit)); b = eof;' })
wait('a note', function() return #vim.diagnostic.get(0) == 1 and vim.diagnostic.get(0)[1].severity == vim.diagnostic.severity.HINT end)
say(shown())
vim.api.nvim_buf_set_lines(0, 1, -1, false, { 'start a; a = seq(string("é😀"), many1(satisfy(digit)), bb);' })
wait('a fault', function() return #vim.diagnostic.get(0) == 1 and vim.diagnostic.get(0)[1].severity == vim.diagnostic.severity.ERROR end)
say(shown())
vim.api.nvim_buf_set_lines(0, 1, -1, false, { 'start a; a = many1(satisfy(digit));' })
wait('acceptance', function() return #vim.diagnostic.get(0) == 0 end)
say(shown())
vim.api.nvim_buf_set_lines(0, 1, -1, false, { 'start a;', 'a = choice(string("let"), string("lambda"));' })
wait('a finding', function() return #vim.diagnostic.get(0) == 1 end)
vim.ui.select = function(changes, _, choose) choose(changes[1], 1) end
vim.api.nvim_win_set_cursor(0, { 3, 10 })
vim.lsp.buf.code_action()
wait('a change', function() return #vim.diagnostic.get(0) == 0 end)
say(vim.api.nvim_buf_get_lines(0, 0, -1, false))
vim.api.nvim_buf_set_lines(0, 0, -1, false, { 'class v = not "\\u{e9}".."é"; # spaces', 'spaces = expr(v, 06);' })
say(groups())
vim.lsp.stop_client(client)
wait('the end', function() return vim.lsp.client_is_stopped(client) end)
say({ ended = true })
vim.cmd('quitall!')
