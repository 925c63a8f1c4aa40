-- Asks the server by Neovim's own client, and prints a line for each answer.
local folder, server = os.getenv('CLIENT_FOLDER'), os.getenv('CLIENT_SERVER')
local patience = 20000

local function say(name, ...)
  io.stdout:write(name .. ': ' .. table.concat(vim.tbl_map(tostring, { ... }), ' ') .. '\n')
end

local function line(number) return vim.api.nvim_buf_get_lines(0, number - 1, number, false)[1] end

local function set(first, last, lines) vim.api.nvim_buf_set_lines(0, first - 1, last, false, lines) end

local function start(file, language)
  vim.cmd('edit ' .. folder .. '/' .. file)
  vim.bo.filetype = language
  local id = vim.lsp.start_client({ name = 'ti_bench', cmd = { server }, root_dir = folder,
    get_language_id = function() return language end })
  vim.lsp.buf_attach_client(0, id)
  vim.wait(patience, function() return vim.lsp.get_client_by_id(id).initialized end, 5)
  return id
end

local function ask(method, number, column, more)
  local given = vim.tbl_extend('force', { textDocument = vim.lsp.util.make_text_document_params(),
    position = { line = number - 1, character = column } }, more or {})
  for _, it in pairs(vim.lsp.buf_request_sync(0, 'textDocument/' .. method, given, patience) or {}) do
    return it.result, it.error
  end
end

local function where(found) return found[1].uri:match('[^/]*$') .. ':' .. found[1].range.start.line + 1 end

local function diagnostics(name, count)
  vim.wait(patience, function() return #vim.diagnostic.get(0) == count end, 5)
  local found = {}
  for _, it in ipairs(vim.diagnostic.get(0)) do
    table.insert(found, it.lnum + 1 .. ' ' .. it.message:gsub('\n', ' | '))
  end
  say(name, table.concat(found, '; '))
end

local function gpl()
  local id = start('game.gpl', 'ti99gpl')
  say('hover', (ask('hover', 4, 13).contents.value:gsub('\n+', ' / ')))
  say('definition', where(ask('definition', 6, 13)))
  say('references', #ask('references', 5, 1, { context = { includeDeclaration = true } }))
  set(4, 3, { '       FOO', '       ST   @LONGNAME,1' })
  diagnostics('refused', 2)
  set(4, 5, {})
  diagnostics('accepted', 0)
  vim.api.nvim_win_set_cursor(0, { 3, 1 })
  vim.lsp.buf.rename('CELL')
  vim.wait(patience, function() return line(3):match('^CELL') ~= nil end, 5)
  say('renamed', line(3) .. '|' .. line(4) .. '|' .. line(5))
  local _, refused = ask('rename', 3, 1, { newName = 'LOOP' })
  say('not renamed', refused and refused.message)
  set(4, 4, { 'START st @cell,3 three' })
  vim.wait(100)
  if vim.lsp.buf.format then
    vim.lsp.buf.format({ timeout_ms = patience })
  else
    vim.lsp.buf.formatting_sync({}, patience)
  end
  say('formatted', line(4))
  local found = {}
  for _, it in ipairs(ask('completion', 4, 13) or {}) do table.insert(found, it.label) end
  table.sort(found)
  say('completion', table.concat(found, ' '))
  say('symbols', #ask('documentSymbol', 1, 0))
  say('lens', ask('codeLens', 1, 0)[1].command.title)
  set(4, 4, { 'START  ST   @CELL, 3' })
  diagnostics('slip', 1)
  local range = { start = { line = 3, character = 0 }, ['end'] = { line = 3, character = 1 } }
  local actions = ask('codeAction', 4, 0, { range = range, context = { diagnostics = {} } })
  vim.lsp.util.apply_workspace_edit(actions[1].edit, 'utf-16')
  say('action', actions[1].title .. '|' .. line(4))
  vim.lsp.stop_client(id)
end

local function assembler()
  local id = start('main.a99', 'ti99asm')
  say('copied definition', where(ask('definition', 3, 16)))
  vim.cmd('edit ' .. folder .. '/ADDING.SRC')
  vim.bo.filetype = 'ti99asm'
  vim.lsp.buf_attach_client(0, id)
  set(4, 4, { '       CLR  R33' })
  diagnostics('copied refused', 1)
  vim.lsp.stop_client(id)
end

local ok, err = xpcall(function() gpl() assembler() end, debug.traceback)
if not ok then say('error', err) end
io.stdout:flush()
vim.cmd('qall!')
