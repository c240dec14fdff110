// Text in HTML.

const SPECIAL = /[\u0000-\u0008\u000b\u000c\u000e-\u001f\u007f&<>"'`]/;

/** @param {string} text @returns {string} for an element or an attribute in quotes; what HTML can't have is replaced */
export function escaped(text) {
  if (!SPECIAL.test(text)) return text;
  return text.replace(/[\u0000-\u0008\u000b\u000c\u000e-\u001f\u007f]/g, '\ufffd').replace(/[&<>"'`]/g, (it) => `&#${it.charCodeAt(0)};`);
}
