// Which day it is on the machine, as its front end said: node clock.mjs PAGE. Prints what differs.
import { pathToFileURL } from 'node:url';
import { resolve } from 'node:path';

const { heard, today } = await import(`${pathToFileURL(resolve(process.argv[2])).href}/clock.js`);
const real = Date.now;
const at = (text) => { Date.now = () => Date.parse(text); };
const is = (name, wanted) => {
  if (today() !== wanted) console.log(`${name}: ${today()}, not ${wanted}`);
};
// A browser in New York, whose day ends six hours later than that of Berlin.
at('2027-05-31T21:30:00Z');
const local = new Date(Date.now());
is('before anything is said', [local.getFullYear(), local.getMonth() + 1, local.getDate()]
  .map((part) => String(part).padStart(2, '0')).join('-'));
heard('2027-05-31T23:30:00+02:00');
is('half an hour before midnight there', '2027-05-31');
at('2027-05-31T22:30:00Z');
is('an hour later', '2027-06-01');
for (const bad of [null, '', 'now', '2027-05-31T23:30:00', '2027-13-31T23:30:00+02:00']) heard(bad);
is('what is no time changes nothing', '2027-06-01');
heard('2027-05-31T12:30:00-10:00');
is('a machine in Honolulu', '2027-05-31');
// A browser whose clock is a year ahead.
at('2028-06-01T00:00:00Z');
heard('2027-06-01T00:30:00+02:00');
is('a browser ahead', '2027-06-01');
at('2028-06-01T23:00:00Z');
is('and nearly a day later', '2027-06-01');
Date.now = real;
