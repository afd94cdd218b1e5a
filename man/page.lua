-- Turns a document into the body of a manual page: code is bold, a document with a manual page is cited as that page, a
-- link becomes its text, and each row of a table is an entry: its first cell is the term, and the others follow, each
-- after its column's name.

local pages = {
  ["COMMANDS.md"] = "talft(1)",
  ["SOURCE_LANGUAGE.md"] = "talft-source(5)",
  ["OBJECT_FORMAT.md"] = "talft-object(5)",
  ["ASSEMBLY.md"] = "talft-assembly(5)",
  ["TYPING.md"] = "talft-typing(7)",
  ["LINKING.md"] = "talft-link(5)",
  ["TOOLS.md"] = "talft-tools(7)",
  ["MACHINE.md"] = "talft-machine(7)",
  ["C.md"] = "talft-c(7)",
  ["DEBUGGING.md"] = "talft-debugging(7)",
}

-- What a reader of a page cannot look up: files of the repository, and terms of the proofs. A page leaves out sentences
-- that contain them, and columns of tables that name definitions.
local unknown = { "crates/", "%.antt", "tests/", "%.md", "[Cc]lause", "[Ss]hel[fv]", "[Ss]ink", "[Dd]efinition", "lemma", "Before the proof" }
local dropped = { definition = true, words = true, ranges = true, clause = true, clauses = true, derivation = true,
  ["its lexemes, before others"] = true, ["its tree"] = true }
local plainer = { put = "placed", puts = "writes", ["put."] = "placed.", ["puts,"] = "writes,", ["put,"] = "placed," }

local function is_unknown(text)
  for _, pattern in ipairs(unknown) do
    if text:match(pattern) then
      return true
    end
  end
  return false
end

-- Names of definitions and clauses, recognized by mixed case or an underscore, and some plain words.
local bare = { headline = true, loads = true, script = true, tool = true, same = true, value = true, degree = true,
  substitute = true, either = true, is_run = true }
local function is_name(text)
  return bare[text] or text:match("^%a[%w_]*_[%w_.:]*$") or text:match("^%u%l+%u?[%w]*$") or text:match("^[%w_/]+%.antt$")
    or text:match("^crates/")
end

-- The end of the bracket that starts here, if it contains only such names; else nil.
local function end_of_names(inlines, at)
  local first = inlines[at]
  if first.t ~= "Str" or first.text ~= "(" then
    return nil
  end
  for place = at + 1, #inlines do
    local one = inlines[place]
    if one.t == "Str" and one.text:match("^%)") then
      return place > at + 1 and place or nil
    elseif not (one.t == "Strong" and is_name(pandoc.utils.stringify(one)) or one.t == "Space" or one.t == "SoftBreak"
        or one.t == "Str" and (one.text == "," or one.text == "and" or one.text == "of" or one.text == "in")) then
      return nil
    end
  end
end

-- Removes the space before an omission.
local function close_up(sentence)
  local last = sentence[#sentence]
  if last and (last.t == "Space" or last.t == "SoftBreak") then
    sentence:remove(#sentence)
  end
end

-- The sentences that make sense on the page alone. A sentence ends with a full stop before a space.
local function standing(inlines)
  local kept, sentence = pandoc.List(), pandoc.List()
  local function close()
    if not is_unknown(pandoc.utils.stringify(pandoc.Span(sentence))) then
      kept:extend(sentence)
    end
    sentence = pandoc.List()
  end
  local at = 1
  while at <= #inlines do
    local one, name, last = inlines[at], inlines[at + 1], inlines[at + 2]
    -- Omits only the brackets if they cite a document without a page.
    if one.t == "Str" and one.text == "(" and name and name.t == "Strong" and is_unknown(pandoc.utils.stringify(name))
        and last and last.t == "Str" and last.text:match("^%)") then
      close_up(sentence)
      if last.text ~= ")" then
        sentence:insert(pandoc.Str(last.text:sub(2)))
      end
      at = at + 3
    elseif end_of_names(inlines, at) then
      at = end_of_names(inlines, at)
      close_up(sentence)
      if inlines[at].text ~= ")" then
        sentence:insert(pandoc.Str(inlines[at].text:sub(2)))
      end
      at = at + 1
    else
      sentence:insert(one)
      at = at + 1
    end
    local ended = sentence[#sentence]
    local after = inlines[at]
    if ended and ended.t == "Str" and ended.text:match("%.$") and after and (after.t == "Space" or after.t == "SoftBreak") then
      close()
    end
  end
  close()
  return kept
end

-- Replaces proof terms by plainer words.
local function named(inlines)
  return pandoc.walk_inline(pandoc.Span(inlines), {
    Str = function(word)
      return pandoc.Str(plainer[word.text] or word.text)
    end,
  }).content
end

function Para(block)
  -- A page has no pictures.
  if pandoc.utils.stringify(block):match("^This picture") then
    return {}
  end
  local kept = standing(named(block.content))
  return #kept > 0 and pandoc.Para(kept) or {}
end

function Plain(block)
  return pandoc.Plain(standing(named(block.content)))
end

function Image()
  return {}
end

function Code(code)
  local page = pages[code.text:gsub("^docs/", "")]
  return pandoc.Strong({ pandoc.Str(page or code.text) })
end

-- Section headings of a page are in capitals.
function Header(header)
  if header.level > 1 then
    return header
  end
  return header:walk({
    Str = function(word)
      return pandoc.Str(pandoc.text.upper(word.text))
    end,
  })
end

function Link(link)
  local page = pages[link.target:gsub("#.*", ""):gsub("^.*/", "")]
  return page and link.content .. { pandoc.Space(), pandoc.Str("("), pandoc.Strong({ pandoc.Str(page) }), pandoc.Str(")") }
    or link.content
end

-- Verbatim text, indented.
function CodeBlock(block)
  if block.text:match("tests/") then
    return {}
  end
  local lines = {}
  for line in (block.text .. "\n"):gmatch("(.-)\n") do
    line = line:gsub("\\", "\\e"):gsub("-", "\\-"):gsub("'", "\\(aq"):gsub("`", "\\(ga"):gsub("%^", "\\(ha"):gsub("~", "\\(ti")
    lines[#lines + 1] = line:gsub("^([.'])", "\\&%1")
  end
  return pandoc.RawBlock("man", ".PP\n.RS 4\n.nf\n" .. table.concat(lines, "\n") .. "\n.fi\n.RE")
end

-- The inlines of a cell, which has at most one block here.
local function inlines(cell)
  local block = cell[1]
  return block and block.content or {}
end

function Table(whole)
  local plain = pandoc.utils.to_simple_table(whole)
  local names, entries = {}, {}
  for at, header in ipairs(plain.headers) do
    names[at] = pandoc.utils.stringify(header)
  end
  names[1] = names[1] or ""
  if names[1] == "law" or names[2] == "law" then
    return {}
  end
  local is_empty = true
  for _, row in ipairs(plain.rows) do
    local term, text = pandoc.List(inlines(row[1])), pandoc.List()
    -- A bare number needs its column name.
    if pandoc.utils.stringify(row[1]):match("^[%d, ]*$") then
      term = pandoc.List({ pandoc.Str(names[1]), pandoc.Space() }) .. term
    end
    for at = 2, #row do
      local said = (dropped[names[at]] or #row > 2 and names[at] == "") and pandoc.List() or standing(named(pandoc.List(inlines(row[at]))))
      if #said > 0 and #text > 0 then
        text:insert(pandoc.RawInline("man", "\n.br\n"))
      end
      if #said > 0 and #row > 2 and names[at] ~= "" then
        text:extend({ pandoc.Emph({ pandoc.Str(names[at] .. ":") }), pandoc.Space() })
      end
      text:extend(said)
    end
    is_empty = is_empty and #text == 0
    entries[#entries + 1] = { term, { { pandoc.Plain(text) } } }
  end
  return is_empty and {} or pandoc.DefinitionList(entries)
end

-- A page begins with its synopsis, if the document begins with a list of calls, or has it after one paragraph.
function Pandoc(page)
  local blocks, at = page.blocks, 1
  local second = blocks[2]
  if blocks[1].t == "Para" and second and second.t == "RawBlock" and second.text:find("\ntalft ") then
    blocks[1], blocks[2] = second, blocks[1]
  end
  if blocks[1].t == "RawBlock" then
    blocks:insert(1, pandoc.Header(1, "SYNOPSIS"))
    at = 3
  end
  if blocks[at].t ~= "Header" then
    blocks:insert(at, pandoc.Header(1, "DESCRIPTION"))
  end
  return page
end
