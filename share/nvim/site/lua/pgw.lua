-- The server of pgw for the buffers of Neovim. Tried with 0.7.2; newer ones have `vim.lsp.start`, which was not tried.
local M = {}
local client

-- The URI of the folder with the pages of codes, if this file stands in a repository.
local function pages_beside()
    local docs = vim.fn.fnamemodify(debug.getinfo(1, 'S').source:sub(2), ':p:h:h:h:h:h') .. '/docs/'
    if vim.fn.filereadable(docs .. 'FINDINGS.md') == 1 then
        return vim.uri_from_fname(docs)
    end
end

-- Starts the server, or takes the one that runs, for the buffer that is shown. Options: `cmd`, the server's command, and `pages`, the URI of the folder with the
-- pages of codes.
function M.start(options)
    options = options or {}
    local config = {
        name = 'pgw',
        cmd = options.cmd or { 'pgw', 'lsp' },
        root_dir = vim.fn.getcwd(),
        init_options = { pages = options.pages or pages_beside() },
    }
    if vim.lsp.start then
        return vim.lsp.start(config)
    end
    client = client or vim.lsp.start_client(config)
    vim.lsp.buf_attach_client(0, client)
    return client
end

return M
