-- Starts `vsi lsp` for a source text in Neovim, once for all of a folder. `vim.g.vsi_lsp` may be the command, as a list,
-- or false for none.
local command = vim.g.vsi_lsp
if command == nil then
  command = { 'vsi', 'lsp' }
end
if not command or vim.fn.executable(command[1]) == 0 then
  return
end
local folder = vim.fn.expand('%:p:h')
if vim.lsp.start then
  vim.lsp.start({ name = 'vsi', cmd = command, root_dir = folder })
  return
end
-- Before Neovim 0.8.
_G.vsi_servers = _G.vsi_servers or {}
local server = _G.vsi_servers[folder]
if not server or vim.lsp.client_is_stopped(server) then
  server = vim.lsp.start_client({ name = 'vsi', cmd = command, root_dir = folder })
  _G.vsi_servers[folder] = server
end
if server then
  vim.lsp.buf_attach_client(0, server)
end
