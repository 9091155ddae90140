-- A session of Neovim with `vsi lsp`: opens a text, does the steps of a file, and writes what came of each.
--
-- VSI_SERVER is the command of the server, for `sh`, and VSI_PLUGIN the folder of the package that starts it; VSI_TEXT
-- is the path of the text, VSI_STEPS that of a list of steps, VSI_RESULTS that of the list of results. A step has `keys`
-- that are typed, or a request `ask` with its position `at`, a new name `rename`, or `format`. A result has the lines of
-- the text, the diagnostics of the server, how many of them Neovim shows, and the answer to a request.

local patience = 20000
local latest = nil
local default = vim.lsp.handlers['textDocument/publishDiagnostics']
vim.lsp.handlers['textDocument/publishDiagnostics'] = function(err, result, context, config)
  latest = result
  return default(err, result, context, config)
end

local function steps_of(path)
  return vim.fn.json_decode(table.concat(vim.fn.readfile(path), '\n'))
end

local function complain(text)
  io.stderr:write(text .. '\n')
  vim.cmd('cquit 1')
end

-- Waits until the server has judged the text as it is.
local function settle(what)
  local judged = vim.wait(patience, function()
    local version = vim.lsp.util.buf_versions[vim.api.nvim_get_current_buf()]
    return latest ~= nil and (latest.version == version or latest.version == 0)
  end, 5)
  if not judged then
    complain('no diagnostics after ' .. what)
  end
end

local function typed(keys)
  local before, judged = vim.api.nvim_buf_get_changedtick(0), latest
  latest = nil
  vim.api.nvim_feedkeys(vim.api.nvim_replace_termcodes(keys, true, false, true), 'xt', false)
  if vim.api.nvim_buf_get_changedtick(0) ~= before then
    settle(keys)
  else
    latest = judged
  end
end

local function asked(method, parameters)
  local answers = vim.lsp.buf_request_sync(0, method, parameters, patience)
  for _, answer in pairs(answers or {}) do
    return answer
  end
  complain('no answer to ' .. method)
end

local function position(step)
  local parameters = { textDocument = vim.lsp.util.make_text_document_params() }
  if step.at then
    parameters.position = { line = step.at[1], character = step.at[2] }
  end
  return parameters
end

-- Does a step, and answers the answer to its request.
local function done(step)
  if step.keys then
    typed(step.keys)
    return nil
  end
  local parameters = position(step)
  if step.rename then
    parameters.newName = step.rename
    local answer = asked('textDocument/rename', parameters)
    if answer.result then
      latest = nil
      vim.lsp.util.apply_workspace_edit(answer.result, 'utf-16')
      settle('a renaming')
    end
    return answer
  end
  if step.format then
    parameters.options = { tabSize = 4, insertSpaces = true }
    local answer = asked('textDocument/formatting', parameters)
    if type(answer.result) == 'table' and #answer.result > 0 then
      latest = nil
      vim.lsp.util.apply_text_edits(answer.result, vim.api.nvim_get_current_buf(), 'utf-16')
      settle('a layout')
    end
    return answer
  end
  if step.range then
    local range = step.range
    parameters.range = {
      start = { line = range[1], character = range[2] },
      ['end'] = { line = range[3], character = range[4] },
    }
  end
  for name, value in pairs(step.more or {}) do
    parameters[name] = value
  end
  return asked(step.ask, parameters)
end

local function session()
  local results = {}
  vim.g.vsi_lsp = { 'sh', '-c', os.getenv('VSI_SERVER') }
  vim.opt.runtimepath:prepend(os.getenv('VSI_PLUGIN'))
  vim.cmd('filetype plugin on')
  vim.cmd('edit ' .. vim.fn.fnameescape(os.getenv('VSI_TEXT')))
  settle('opening')
  for _, step in ipairs(steps_of(os.getenv('VSI_STEPS'))) do
    local answer = done(step)
    table.insert(results, {
      lines = vim.api.nvim_buf_get_lines(0, 0, -1, false),
      diagnostics = latest.diagnostics,
      shown = #vim.diagnostic.get(0, { severity = vim.diagnostic.severity.ERROR }),
      answer = answer,
    })
  end
  vim.fn.writefile({ vim.fn.json_encode(results) }, os.getenv('VSI_RESULTS'))
  vim.lsp.stop_client(vim.lsp.get_active_clients())
  vim.wait(patience, function()
    return vim.tbl_isempty(vim.lsp.get_active_clients())
  end, 5)
end

local fine, said = pcall(session)
if not fine then
  complain(tostring(said))
end
vim.cmd('qall!')
