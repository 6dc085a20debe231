/** The chance of the tests is that of the exercises. */

export { Chance } from '../chance.js';
