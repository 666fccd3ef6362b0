-- The language server with the client that is built into Neovim, version 0.7 or later, as a user meets it:
--   TERA=PROGRAM nvim --clean --headless -l tools/server_in_neovim.lua      (0.9 or later)
--   TERA=PROGRAM nvim --clean --headless -S tools/server_in_neovim.lua
-- where PROGRAM is the path of `tera`.
-- It ends with status 0 where each step gave what it must.
local program = assert(os.getenv("TERA"), "TERA names the program")
local folder = vim.fn.tempname()
local failed = 0

local function say(text)
  io.stdout:write(text .. "\n")
end

local function must(name, condition, found)
  if condition then
    say("ok    " .. name)
  else
    failed = failed + 1
    say("WRONG " .. name .. ": " .. vim.inspect(found))
  end
end

local function write(name, lines)
  vim.fn.mkdir(vim.fn.fnamemodify(folder .. "/" .. name, ":h"), "p")
  vim.fn.writefile(lines, folder .. "/" .. name)
end

write("templates/base.html", { "<html>{% block body %}{% endblock body %}</html>" })
write("templates/ui.html", {
  "{# é 😀 #}{% component ui.box(label: string, size: integer = 3) %}{{ label }}{{ size }}{% endcomponent %}",
})
write("templates/page.html", {
  '{% extends "base.html" %}',
  "{% block body %}",
  "😀{{ <ui.box size={2}/ }}",
  "{% endblock body %}",
})

local function open(name)
  vim.cmd("edit " .. folder .. "/templates/" .. name)
  return vim.api.nvim_get_current_buf()
end

local ended = nil
local page = open("page.html")
local client_id = vim.lsp.start_client({
  name = "tera",
  cmd = { program, "server" },
  root_dir = folder,
  workspace_folders = { { uri = vim.uri_from_fname(folder), name = "templates" } },
  flags = { debounce_text_changes = 0 },
  on_exit = function(code, signal)
    ended = { code = code, signal = signal }
  end,
})
assert(client_id, "the server does not start")
vim.lsp.buf_attach_client(page, client_id)
vim.wait(5000, function()
  return vim.lsp.get_client_by_id(client_id).initialized == true
end, 5)
local client = vim.lsp.get_client_by_id(client_id)
must("the server is initialized", client ~= nil and client.initialized, client)

-- What is found in the buffer, as lines, once the test holds of it.
local function findings(buffer, test)
  local found = {}
  vim.wait(5000, function()
    found = {}
    for _, one in ipairs(vim.diagnostic.get(buffer)) do
      table.insert(found, string.format("%d:%d-%d:%d %s", one.lnum, one.col, one.end_lnum, one.end_col, one.message))
    end
    table.sort(found)
    return test(found)
  end, 5)
  return found
end

local function ask(buffer, method, params)
  local answers = vim.lsp.buf_request_sync(buffer, method, params, 5000)
  local answer = answers and answers[client_id]
  return answer and (answer.result or answer.error or answer.err)
end

local function at(buffer, line, character)
  return { textDocument = vim.lsp.util.make_text_document_params(buffer), position = { line = line, character = character } }
end

-- A fault of the parser, at its place: columns of Neovim are bytes.
local found = findings(page, function(f) return #f == 1 end)
must("a fault is told", #found == 1 and found[1]:match("^2:25%-2:27 ") ~= nil, found)

-- It is mended by an edit after a character of two units; what the checker finds is reported instead.
vim.api.nvim_buf_set_text(page, 2, 24, 2, 24, { ">" })
found = findings(page, function(f) return #f == 1 and f[1]:match("missing") ~= nil end)
local text = vim.api.nvim_buf_get_lines(page, 2, 3, true)[1]
say("      " .. text)
vim.api.nvim_buf_set_lines(page, 2, 3, true, { "😀{{ <ui.box  size={2}/> }}{{ a|upper }}" })
found = findings(page, function(f) return #f == 1 and f[1]:match("missing") ~= nil end)
must("a missing argument is told", #found == 1 and found[1]:match("^2:7%-2:25 Argument `label`") ~= nil, found)

-- Another file defines the component.
local ui = open("ui.html")
vim.lsp.buf_attach_client(ui, client_id)
vim.api.nvim_buf_set_lines(ui, 0, 1, true, {
  "{# é 😀 #}{% component ui.box(size: integer = 3) %}{{ size }}{% endcomponent %}",
})
found = findings(page, function(f) return #f == 0 end)
must("an edit of the definition mends the call", #found == 0, found)
vim.api.nvim_buf_set_lines(ui, 0, 1, true, {
  "{# é 😀 #}{% component ui.box(size: string = 'l') %}{{ size }}{% endcomponent %}",
})
found = findings(page, function(f) return #f == 1 end)
must("an argument of another type is told", #found == 1 and found[1]:match("does not match expected type") ~= nil, found)
vim.api.nvim_buf_set_lines(page, 2, 3, true, { '😀{{ <ui.box  size="m"/> }}{{ a|upper }}' })
found = findings(page, function(f) return #f == 0 end)
must("nothing is found any more", #found == 0, found)

-- The layout.
vim.api.nvim_set_current_buf(page)
if vim.lsp.buf.format then
  vim.lsp.buf.format({ async = false, timeout_ms = 5000 })
else
  vim.lsp.buf.formatting_sync({}, 5000)
end
text = vim.api.nvim_buf_get_lines(page, 2, 3, true)[1]
must("the page is laid out", text == '😀{{ <ui.box size="m"/> }}{{ a | upper }}', text)
local edits = ask(page, "textDocument/formatting", {
  textDocument = vim.lsp.util.make_text_document_params(page),
  options = { tabSize = 2, insertSpaces = true },
})
must("and is laid out as it is", type(edits) == "table" and #edits == 0, edits)

-- The outline, and where things are defined: a request right after an edit is answered by the current text.
local symbols = ask(page, "textDocument/documentSymbol", { textDocument = vim.lsp.util.make_text_document_params(page) })
must("the outline has the block", type(symbols) == "table" and #symbols == 1 and symbols[1].name == "body", symbols)
vim.api.nvim_buf_set_lines(ui, 0, 0, true, { "" })
local place = ask(page, "textDocument/definition", at(page, 2, 9))
must("the component is defined a line further", type(place) == "table" and place.uri == vim.uri_from_bufnr(ui)
  and place.range.start.line == 1, place)
place = ask(page, "textDocument/definition", at(page, 0, 15))
must("the template that is extended is found", type(place) == "table" and place.uri:match("/base%.html$") ~= nil, place)

-- The colours: each token by its distance from the one before, in units of UTF-16.
local tokens = ask(page, "textDocument/semanticTokens/full", { textDocument = vim.lsp.util.make_text_document_params(page) })
local kinds = client.server_capabilities.semanticTokensProvider.legend.tokenTypes
local data = type(tokens) == "table" and tokens.data or {}
local coloured, line, character = {}, 0, 0
for n = 1, #data, 5 do
  line, character = line + data[n], data[n] == 0 and character + data[n + 1] or data[n + 1]
  table.insert(coloured, string.format("%d:%d-%d %s", line, character, character + data[n + 2], kinds[data[n + 3] + 1]))
end
coloured = table.concat(coloured, ", ")
must("the tokens are coloured", coloured:match("0:3%-10 keyword, 0:11%-22 string, ") and coloured:match(", 2:6%-8 class, 2:9%-12 class, ")
  and coloured:match(", 2:29%-30 variable, 2:31%-32 operator, 2:33%-38 function, "), coloured)
-- What hover shows of a component, and where it is named, in all files and by the current texts.
local hover = ask(page, "textDocument/hover", at(page, 2, 9))
must("hover shows the head of the definition", type(hover) == "table" and type(hover.contents) == "table"
  and hover.contents.value == "ui.box(size: string = 'l')", hover)
hover = ask(page, "textDocument/hover", at(page, 0, 15))
must("hover shows nothing for a template", hover == nil or hover == vim.NIL, hover)
local help = ask(page, "textDocument/signatureHelp", at(page, 2, 14))
must("the call shows which parameter its argument is for", type(help) == "table" and help.activeParameter == 0
  and help.signatures[1].label == "ui.box(size: string = 'l')"
  and vim.deep_equal(help.signatures[1].parameters[1].label, { 7, 11 }), help)
local function references(buffer, line, character, declared)
  local params = at(buffer, line, character)
  params.context = { includeDeclaration = declared }
  local places = {}
  for _, place in ipairs(ask(buffer, "textDocument/references", params) or {}) do
    table.insert(places, string.format("%s:%d:%d-%d", place.uri:match("[^/]*$"), place.range.start.line,
      place.range.start.character, place.range["end"].character))
  end
  return table.concat(places, " ")
end
local places = references(ui, 1, 24, false)
must("the call is found", places == "page.html:2:6-12", places)
places = references(page, 2, 9, true)
must("and the definition, where it is asked for", places == "page.html:2:6-12 ui.html:1:23-29", places)
places = references(page, 0, 15, false)
must("the template is extended in one place", places == "page.html:0:11-22", places)
-- What may be typed, in a text that has a fault.
local function offered(character)
  local items, labels = ask(page, "textDocument/completion", at(page, 2, character)), {}
  for _, item in ipairs(type(items) == "table" and items or {}) do
    table.insert(labels, item.label)
  end
  return items, labels
end
vim.api.nvim_buf_set_lines(page, 2, 3, true, { "{% component own() %}😀{{ <ui. }}" })
local items, labels = offered(30)
must("components are offered, that of the text too", vim.deep_equal(labels, { "own", "ui.box" }), labels)
if #labels == 2 then
  vim.lsp.util.apply_text_edits({ items[2].textEdit }, page, client.offset_encoding)
end
text = vim.api.nvim_buf_get_lines(page, 2, 3, true)[1]
must("one takes the place of what is typed", text == "{% component own() %}😀{{ <ui.box }}", text)
vim.api.nvim_buf_set_lines(page, 2, 3, true, { "{{ <ui.box s }}" })
items, labels = offered(12)
must("parameters are offered", vim.deep_equal(labels, { "size" }), labels)
vim.api.nvim_buf_set_lines(page, 2, 3, true, { '{% include "" %}' })
items, labels = offered(12)
must("templates are offered", vim.deep_equal(labels, { "base.html", "page.html", "ui.html" }), labels)
vim.api.nvim_buf_set_lines(page, 2, 3, true, { "{% e %}" })
items, labels = offered(4)
must("statements are offered", vim.tbl_contains(labels, "endblock"), labels)
items, labels = offered(0)
must("in a text nothing is", items == vim.NIL or items == nil, items)

-- A request that is not known has an error.
local unknown = ask(page, "textDocument/nothing", {})
must("a request that is not known is refused", type(unknown) == "table" and unknown.code == -32601, unknown)

-- The end.
client.stop()
vim.wait(5000, function()
  return ended ~= nil
end, 5)
must("the server ends with status 0", ended ~= nil and ended.code == 0 and ended.signal == 0, ended)
vim.fn.delete(folder, "rf")
say(failed == 0 and "all as it must be" or (failed .. " wrong"))
vim.cmd(failed == 0 and "qall!" or "cquit 1")
