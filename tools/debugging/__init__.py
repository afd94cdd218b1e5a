"""The interactive debugger: what the tools debugger, dap, explain and lines share."""
