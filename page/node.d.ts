// The types check needs no package of Node's types: these modules are taken as they come.
declare module 'node:*';
declare module 'node:fs';
declare module 'node:path';
declare module 'node:url';
declare module 'node:zlib';
declare module 'node:crypto';
declare module 'node:test';
declare module 'node:assert/strict';
declare module 'node:child_process';
declare module 'node:readline';
declare const process: any;
declare const Buffer: any;
