-- Worlds and transcripts of Ceptre in Neovim 0.7 and later: source this file from init.lua, by
--   dofile("/path/to/editors/neovim/ceptre.lua")
-- It starts `ceptre-server`, or what vim.g.ceptre_server names, for each file that ends with .cep, and for a
-- transcript beside a world of its name.
local server = vim.g.ceptre_server or "ceptre-server"

local function root_of(path)
  local found = vim.fn.finddir(".git", vim.fn.fnamemodify(path, ":p:h") .. ";")
  return found ~= "" and vim.fn.fnamemodify(found, ":p:h:h") or vim.fn.fnamemodify(path, ":p:h")
end

local function keys(buffer)
  local function map(key, action)
    vim.keymap.set("n", key, action, { buffer = buffer, silent = true })
  end
  map("K", vim.lsp.buf.hover)
  map("gd", vim.lsp.buf.definition)
  map("gr", vim.lsp.buf.references)
  map("<F2>", vim.lsp.buf.rename)
  map("<F4>", vim.lsp.buf.code_action)
  map("]d", vim.diagnostic.goto_next)
  map("[d", vim.diagnostic.goto_prev)
  vim.bo[buffer].omnifunc = "v:lua.vim.lsp.omnifunc"
end

local clients = {}

local function attach(buffer)
  local path = vim.api.nvim_buf_get_name(buffer)
  if path:match("%.log$") and vim.fn.filereadable((path:gsub("%.log$", ".cep"))) == 0 then
    return
  end
  local root = root_of(path)
  clients[root] = clients[root] or vim.lsp.start_client({
    name = "ceptre",
    cmd = { server },
    root_dir = root,
    workspace_folders = { { uri = vim.uri_from_fname(root), name = root } },
    init_options = vim.g.ceptre_options,
    on_attach = function(_, attached) keys(attached) end,
    on_exit = function() clients[root] = nil end,
  })
  if clients[root] then
    vim.lsp.buf_attach_client(buffer, clients[root])
  end
end

local group = vim.api.nvim_create_augroup("ceptre", { clear = true })
vim.api.nvim_create_autocmd({ "BufRead", "BufNewFile" }, {
  group = group,
  pattern = "*.cep",
  callback = function(event) vim.bo[event.buf].filetype = "ceptre" end,
})
vim.api.nvim_create_autocmd({ "BufRead", "BufNewFile" }, {
  group = group,
  pattern = { "*.cep", "*.log" },
  callback = function(event) attach(event.buf) end,
})
-- :Format and :CeptrePlay, beside the keys of Neovim's own client.
vim.api.nvim_create_user_command("CeptreFormat", function()
  local format = vim.lsp.buf.format or vim.lsp.buf.formatting_sync
  format()
end, {})
vim.api.nvim_create_user_command("CeptrePlay", function()
  vim.cmd("split | terminal ceptre-player " .. vim.fn.shellescape(vim.fn.expand("%:p")))
end, {})
