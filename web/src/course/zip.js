// The files of an archive, as a learning platform packs what a class has handed in.
const [ENTRY, END, DEFLATED] = [0x02014b50, 0x06054b50, 8];
const END_BYTES = 22; // of the record at the end, without its comment
const [MOST_BYTES, MOST_DEPTH] = [1 << 26, 3]; // of one file; archives within archives

function isZip(bytes) {
  return bytes[0] === 80 && bytes[1] === 75 && (bytes[2] === 3 || bytes[2] === 5);
}

// The bytes that a part of an archive is: at most so many.
async function inflated(part) {
  const reader = new Blob([part]).stream().pipeThrough(new DecompressionStream('deflate-raw')).getReader(), parts = [];
  for (let all = 0; ;) {
    const {done, value} = await reader.read();
    if (done) return new Uint8Array(await new Blob(parts).arrayBuffer());
    if ((all += value.length) > MOST_BYTES) throw new Error('A file in the archive is too long.');
    parts.push(value);
  }
}

// Of each file: how it is packed, and its bytes as they are packed.
function entriesOf(bytes) {
  const view = new DataView(bytes.buffer, bytes.byteOffset, bytes.byteLength), entries = [];
  let end = bytes.length - END_BYTES;
  while (end >= 0 && view.getUint32(end, true) !== END) end--;
  if (end < 0) throw new Error('The archive has no end: was it cut?');
  for (let at = view.getUint32(end + 16, true), left = view.getUint16(end + 10, true); left && view.getUint32(at, true) === ENTRY; left--) {
    const [method, length, header] = [view.getUint16(at + 10, true), view.getUint32(at + 20, true), view.getUint32(at + 42, true)];
    const from = header + 30 + view.getUint16(header + 26, true) + view.getUint16(header + 28, true);
    entries.push({method, part: bytes.subarray(from, from + length)});
    at += 46 + view.getUint16(at + 28, true) + view.getUint16(at + 30, true) + view.getUint16(at + 32, true);
  }
  return entries;
}

// The texts of a file: its own, or those of all files of an archive.
export async function textsIn(bytes, depth = 0) {
  if (!isZip(bytes) || depth === MOST_DEPTH) return [new TextDecoder('latin1').decode(bytes)];
  const texts = [];
  for (const {method, part} of entriesOf(bytes)) texts.push(...await textsIn(method === DEFLATED ? await inflated(part) : part, depth + 1));
  return texts;
}
