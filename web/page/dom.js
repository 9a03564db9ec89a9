// The page's elements, what is packed into it, and what it saves.

export const $ = (id) => document.getElementById(id);

/** A new element with these properties. */
export const element = (tag, more = {}) => Object.assign(document.createElement(tag), more);

/** Bytes that were packed into the page. */
export async function unpacked(id) {
  const packed = new Blob([Uint8Array.from(atob($(id).textContent.trim()), (c) => c.charCodeAt(0))]);
  const stream = packed.stream().pipeThrough(new DecompressionStream('gzip'));
  return new Uint8Array(await new Response(stream).arrayBuffer());
}

/** Has the browser save bytes, or a Blob, under a name. */
export function save(bytes, name) {
  const link = element('a', { href: URL.createObjectURL(new Blob([bytes])), download: name });
  link.click();
  setTimeout(() => URL.revokeObjectURL(link.href), 10000);
}
