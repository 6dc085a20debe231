/** The page with a fault that can be turned on in each of its functions: `window.fault` says in which, `window.reached` which were run. */

import { createHash } from 'node:crypto';
import { mkdtempSync, readFileSync, writeFileSync } from 'node:fs';
import { tmpdir } from 'node:os';
import { join } from 'node:path';
import { pathToFileURL } from 'node:url';
import { FILE } from './page-world.js';

const HIT = `const hit = (name) => {
  (window.reached ??= new Set()).add(name);
  if (window.fault !== name) return;
  window.hits = (window.hits ?? 0) + 1;
  throw new Error('a fault in ' + name);
};`;
const MODULE = /^\/\/ (\S+\.js)$/;
const HEAD = /^(?: {2}(?:static |async |get |set )*|(?:async )?function\*? )(#?(?!if|for|while|switch|catch)\w+)\(.*\) \{$/;

/** Every function of the script in these modules begins with its fault. */
function faulty(script, modules) {
  let module = '';
  return script.split('\n').map((line) => {
    module = MODULE.exec(line)?.[1] ?? module;
    const name = modules.test(module) ? HEAD.exec(line)?.[1] : null;
    return name && name !== 'constructor' ? `${line} hit('${module} ${name}');` : line;
  }).join('\n').replace("'use strict';\n", `'use strict';\n${HIT}\n`);
}

/** The page's file with faults, in a folder of its own. */
export function faultyPage(modules) {
  const html = readFileSync(FILE, 'utf8');
  const at = html.lastIndexOf('<script>') + '<script>'.length;
  const script = html.slice(at, html.lastIndexOf('</script>'));
  const hash = (text) => `'sha256-${createHash('sha256').update(text).digest('base64')}'`;
  const changed = faulty(script, modules);
  const folder = mkdtempSync(join(tmpdir(), 'krossvil-faults-'));
  const file = join(folder, 'krossvil.html');
  writeFileSync(file, html.replace(hash(script), hash(changed)).replace(script, () => changed));
  return { folder, href: pathToFileURL(file).href };
}
