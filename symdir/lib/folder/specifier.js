const AMBIENT = 'ambient:';

/** @param {string} specifier @returns {string} as people read it: of a module of the folder its path below that */
export function shortOf(specifier) {
  if (specifier.startsWith(AMBIENT)) return `declare module "${specifier.slice(AMBIENT.length)}"`;
  return specifier.startsWith('file:///') ? specifier.slice('file:///'.length) : specifier;
}

/** @param {string} name as `declare module "name"` has it @returns {string} a specifier */
export function ambientSpecifier(name) {
  return AMBIENT + name;
}
