"use strict";
// What a page has in it: JSON as it stands, or base64 of gzip of JSON, so that a page of much stays small.
async function unpacked(text) {
  text = text.trim();
  if (text.startsWith("{")) return JSON.parse(text);
  const signs = atob(text), octets = new Uint8Array(signs.length);
  for (let at = 0; at < signs.length; at++) octets[at] = signs.charCodeAt(at);
  return new Response(new Blob([octets]).stream().pipeThrough(new DecompressionStream("gzip"))).json();
}
// A text as a page has it.
const safe = text => String(text).replace(/&/g, "&amp;").replace(/</g, "&lt;").replace(/>/g, "&gt;").replace(/"/g, "&quot;");
