// The examples' texts, which are those that ship with the program.

import script from '../../crates/pocket/data/fades.csv';
import fields from '../../crates/pocket/data/hk.csv';
import plan from '../../crates/pocket/data/pass.csv';

export const EXAMPLE = { packets: '1000', robust: '2', plan, script };
export const EXAMPLE_FIELDS = fields;
