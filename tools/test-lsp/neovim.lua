-- Neovim as a client: what its own commands make of a buffer. BOLGWYR is the command, FILE a module whose text is made here.

local LONG = 120000
local failed = 0
local tried = 0

local function expect(name, found, wanted)
  tried = tried + 1
  if not vim.deep_equal(found, wanted) then
    failed = failed + 1
    print(('FAILED: %s\n  wanted: %s\n  found:  %s'):format(name, vim.inspect(wanted), vim.inspect(found)))
  end
end

local function wait(name, holds)
  expect(name, (vim.wait(LONG, holds, 50)), true)
end

local function lines()
  return vim.api.nvim_buf_get_lines(0, 0, -1, true)
end

local function cursor(line, column)
  vim.api.nvim_win_set_cursor(0, { line, column })
end

local function found()
  local list = vim.tbl_map(function(one) return ('%d:%d %s'):format(one.lnum, one.col, one.message) end, vim.diagnostic.get(0))
  table.sort(list)
  return list
end

local function request(method, more)
  local parameters = vim.tbl_extend('force', vim.lsp.util.make_position_params(), more or {})
  local answers = vim.lsp.buf_request_sync(0, method, parameters, LONG)
  local _, answer = next(answers or {})
  return answer or {}
end

vim.cmd('edit ' .. vim.fn.fnameescape(vim.env.FILE))
vim.api.nvim_buf_set_lines(0, 0, -1, true, {
  "const { alpha, beta } = globalThis; // é𝒳",
  '/* 𝒳 */ function add(first, unused) {',
  '  return first + alpha;',
  '}',
  'add(beta);',
})
vim.cmd('silent write')
vim.bo.filetype = 'javascript'

local client = vim.lsp.start_client({ cmd = { vim.env.BOLGWYR, 'lsp', '--stdio' }, root_dir = vim.fn.getcwd() })
vim.lsp.buf_attach_client(0, client)

wait('diagnostics', function() return #vim.diagnostic.get(0) == 1 end)
-- Columns are bytes here, and the character before counts four.
expect('a diagnostic', found(), { "1:31 parameter 'unused' is never used" })

cursor(3, 17)
vim.lsp.buf.definition()
wait('definition', function() return vim.deep_equal(vim.api.nvim_win_get_cursor(0), { 1, 8 }) end)
expect('references', #(request('textDocument/references', { context = { includeDeclaration = true } }).result or {}), 2)
expect('hover', request('textDocument/hover').result.contents.value:match('^%*%*`alpha`%*%*') ~= nil, true)
expect('outline', vim.tbl_map(function(one) return one.name end, request('textDocument/documentSymbol').result), { 'alpha', 'beta', 'add' })

vim.lsp.buf.document_highlight()
local space = vim.api.nvim_create_namespace('vim_lsp_references')
wait('highlights', function() return #vim.api.nvim_buf_get_extmarks(0, space, 0, -1, {}) == 2 end)

vim.lsp.buf.rename('gamma')
wait('rename', function() return lines()[3] == '  return first + gamma;' end)
expect('a property that is written out', lines()[1], 'const { alpha: gamma, beta } = globalThis; // é𝒳')
cursor(3, 17)
expect('a refusal', request('textDocument/rename', { newName = 'first' }).error.message, 'line 3: `first` here would mean the one of 2:22')

vim.ui.select = function(items, _, choose) choose(items[1], 1) end
cursor(2, 32)
vim.lsp.buf.code_action()
wait('a code action', function() return lines()[2] == '/* 𝒳 */ function add(first, _unused) {' end)
wait('no diagnostics', function() return #vim.diagnostic.get(0) == 0 end)

-- Changes of ranges, with characters before them that are longer in bytes than in units.
vim.api.nvim_buf_set_text(0, 1, 10, 1, 10, { '/*é*/ ' })
vim.api.nvim_buf_set_lines(0, 4, 5, true, { 'add(beta, missing);', 'let é = 1;' })
wait('diagnostics after changes', function() return #vim.diagnostic.get(0) == 2 end)
expect('diagnostics of the changed text', found(), { "4:10 'missing' is not declared", "5:4 variable 'é' is never used" })
vim.cmd('silent undo')
vim.api.nvim_buf_set_lines(0, 0, 0, true, { 'let x = ;' })
wait('a text that no parser reads', function() return vim.deep_equal(found(), { '0:8 Unexpected token' }) end)

vim.lsp.stop_client(client)
wait('the end', function() return vim.lsp.client_is_stopped(client) end)
print(('Neovim: %d of %d as they should be\n'):format(tried - failed, tried))
vim.cmd(failed == 0 and 'qall!' or 'cquit')
