// The code of docs/LIBRARIES.md for a page or a program in JavaScript. tests/gate/browser runs it.

/** Returns the exit status and the text of `list`. `module` and `recording` are bytes. */
async function listed(module, recording) {
  const { instance } = await WebAssembly.instantiate(module, {});
  const { memory, __heap_base: base, list } = instance.exports;
  const answer = (base.value + 7n) & ~7n; // three numbers: the exit status, and two lengths
  const input = answer + 24n;
  const output = input + BigInt(recording.length);
  for (let room = 65536n; ; ) {
    const lacks = output + room - BigInt(memory.buffer.byteLength);
    if (lacks > 0n) memory.grow((lacks + 65535n) / 65536n);
    new Uint8Array(memory.buffer, Number(input)).set(recording);
    const status = list(input, BigInt(recording.length), 1n, output, room, 0n, output, 0n, answer);
    const [exit, length] = new BigUint64Array(memory.buffer, Number(answer), 2);
    if (status === 0) {
      const text = new Uint8Array(memory.buffer, Number(output), Number(length));
      return { exit: Number(exit), text: new TextDecoder("latin1").decode(text) };
    }
    room = length;
  }
}
