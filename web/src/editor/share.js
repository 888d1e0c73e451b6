// A text in an address: deflated, in the sixty-four signs that addresses may have. A deck has its mark before it, `deck:`.
const MARK = 'deck:';
export const MOST_OF_ADDRESS = 30000; // characters; a longer deck has no address

async function through(stream, bytes) {
  return new Uint8Array(await new Response(new Blob([bytes]).stream().pipeThrough(stream)).arrayBuffer());
}

// Whether the part of an address is a deck itself, and no name of one.
export function isPacked(part) {
  return part.startsWith(MARK);
}

export async function packedText(text) {
  const bytes = await through(new CompressionStream('deflate-raw'), new TextEncoder().encode(text));
  const signs = Array.from(bytes, byte => String.fromCharCode(byte)).join('');
  return btoa(signs).replaceAll('+', '-').replaceAll('/', '_').replace(/=+$/, '');
}
export async function packed(deck) {
  return MARK + await packedText(deck);
}

// The text of such a part; fails if it is none, as when an address was cut.
export async function unpacked(part) {
  try {
    const signs = atob(part.replace(/^deck:/, '').replaceAll('-', '+').replaceAll('_', '/'));
    const bytes = await through(new DecompressionStream('deflate-raw'), Uint8Array.from(signs, sign => sign.charCodeAt(0)));
    return new TextDecoder('utf-8', {fatal: true}).decode(bytes);
  } catch {
    throw new Error('What this address holds isn’t whole. Was the address cut? Ask for it anew, or for the deck as a file.');
  }
}
