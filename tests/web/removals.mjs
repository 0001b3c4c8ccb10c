// The page's rule of who may remove what, against the program: node removals.mjs PAGE < CASES,
// which model/removing.py prints.
import { readFileSync } from 'node:fs';
import { resolve } from 'node:path';
import { pathToFileURL } from 'node:url';

const page = pathToFileURL(resolve(process.argv[2])).href;
const { RULINGS, deletion } = await import(`${page}/decide.js`);
const ruling = (told) => RULINGS[told.split(' ')[0]];
let [count, allowed, wrong] = [0, 0, 0];
for (const line of readFileSync(0, 'utf8').split('\n').filter(Boolean)) {
  const { own, above, status, said } = JSON.parse(line);
  const { may, by } = deletion({
    d: ruling(own.d), D: ruling(above.D), w: ruling(above.w) });
  const isRemoved = status === 204;
  count += 1;
  allowed += Number(isRemoved);
  if (may !== isRemoved || (!may && said.bits !== by)) {
    wrong += 1;
    console.log(by, line);
  }
}
console.log(`${count} cases, ${allowed} may, ${wrong} differ`);
