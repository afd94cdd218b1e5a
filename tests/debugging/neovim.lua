-- Loads the configuration for nvim-dap over a stand-in for that plugin, and writes what the plugin gets.
local dap = { adapters = {}, configurations = {}, step_back = function() end, reverse_continue = function() end }
package.loaded.dap = dap
dofile(os.getenv('TALFT_TOOLS') .. '/../editors/debugging/nvim-dap.lua')
local told = { dap.adapters.talft.type, dap.adapters.talft.command }
for _, kind in ipairs({ 'talft', 'asm' }) do
  for _, one in ipairs(dap.configurations[kind]) do
    table.insert(told, kind .. ' ' .. one.type .. ' ' .. one.request .. ' ' .. one.program)
  end
end
for _, key in ipairs({ '<F6>', '<S-F5>' }) do
  table.insert(told, key .. (vim.fn.mapcheck(key, 'n') ~= '' and ' is mapped' or ' is not mapped'))
end
io.stdout:write(table.concat(told, '\n'), '\n')
