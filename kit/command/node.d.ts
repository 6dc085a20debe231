// What the command uses of Node, as far as its types are checked: not at all.
declare module 'node:crypto';
declare module 'node:fs';
declare module 'node:module';
declare module 'node:os';
declare module 'node:path';
declare module 'node:tty';
declare module 'node:url';
declare module 'node:util';
declare const process: any;
declare const Buffer: any;
type Buffer = any;
