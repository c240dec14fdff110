/** What a declaration is, by number. */
export const KINDS = [
  'class', 'function', 'interface', 'type', 'enum', 'namespace', 'const', 'let', 'var', 'using', 'default', 'export =',
  'method', 'property', 'getter', 'setter', 'constructor', 'accessor', 'parameter', 'index', 'call', 'construct', 'import',
];

/** What else is known of a declaration, as bits of a number. */
export const PRIVATE = 1;
export const EXPORTED = 2;
