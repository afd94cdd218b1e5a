// Runs the named modules in node. Prints `done` or `trap`, the result, and the memory from 1024 to 1280 in hex.
const fs = require('fs');
for (const name of process.argv.slice(2)) {
  let line;
  try {
    const exported = new WebAssembly.Instance(new WebAssembly.Module(fs.readFileSync(name)), {}).exports;
    let how = 'done', result;
    try { result = exported.run(); } catch (error) { how = 'trap'; }
    const word = result === undefined ? '-' : typeof result === 'number' ? result >>> 0 : BigInt.asUintN(64, result);
    line = `${how} ${word} ${Buffer.from(exported.memory.buffer, 1024, 256).toString('hex')}`;
  } catch (error) {
    line = `invalid ${error.message}`;
  }
  console.log(line);
}
