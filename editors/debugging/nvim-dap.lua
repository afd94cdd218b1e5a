-- Debugs talft programs in Neovim, with the plugin nvim-dap: `dofile` it in init.lua. docs/DEBUGGING.md says how.
-- The adapter is `dap` in $TALFT_TOOLS, or `talft-dap` on PATH.
local dap = require('dap')
local tools = os.getenv('TALFT_TOOLS')
dap.adapters.talft = { type = 'executable', command = tools and tools .. '/dap' or 'talft-dap' }

local this = { type = 'talft', request = 'launch', name = 'talft: this file', program = '${file}' }
local struck = vim.tbl_extend('force', this, {
  name = 'talft: this file, struck by a fault',
  fault = function() return vim.fn.input('STEP:SITE:WORD ') end,
})
for _, kind in ipairs({ 'talft', 'talftasm', 'asm' }) do dap.configurations[kind] = { this, struck } end
vim.keymap.set('n', '<F6>', dap.step_back)
vim.keymap.set('n', '<S-F5>', dap.reverse_continue)
