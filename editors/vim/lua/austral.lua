-- The language server of this clone in Neovim: `require('austral').setup()` begins it with the first file of Austral.
-- `setup { program = '..', python = '..' }` names the compiler and the Python.
local M = {}

local here = vim.fn.resolve(debug.getinfo(1, 'S').source:sub(2))
local server = vim.fn.fnamemodify(here, ':h:h:h') .. '/server/austral_server.py'
local client

-- Gives a buffer to the server, which is begun with the first.
local function attach(buffer, options)
  local config = {
    name = 'austral',
    cmd = { options.python or 'python3', server },
    root_dir = vim.fn.getcwd(),
    init_options = { program = options.program },
    on_exit = function() client = nil end,
  }
  if vim.lsp.start then
    vim.lsp.start(config, { bufnr = buffer })
  else
    client = client or vim.lsp.start_client(config)
    if client then vim.lsp.buf_attach_client(buffer, client) end
  end
end

function M.setup(options)
  vim.api.nvim_create_autocmd('FileType', {
    pattern = 'austral',
    callback = function(event) attach(event.buf, options or {}) end,
  })
end

return M
