// The records of parameter files, by the lines in which they stand.

const latest = { text: '', records: [] };

// Where each record of a text begins and ends, by its lines from 0, as the program reads records: empty lines are none, and a line
// within quotes goes on.
export function records_of(text) {
  if (text !== latest.text) Object.assign(latest, { text, records: find_records(text) });
  return latest.records;
}

function find_records(text) {
  const records = [];
  let is_quoted = false;
  text.split(/\r\n?|\n/).forEach((line, at) => {
    if (is_quoted) Object.assign(records.at(-1), { text: `${records.at(-1).text}\n${line}`, last: at });
    else if (line) records.push({ text: line, first: at, last: at });
    if (line.split('"').length % 2 === 0) is_quoted = !is_quoted;
  });
  return records;
}

// The cells of a record's text, without the quotes that may stand round each.
export const cells_in = (text) => text.split(',').map((cell) => cell.replace(/^"(.*)"$/, '$1'));

export const fields_of = (text) => records_of(text).map((record) => cells_in(record.text));

export function with_rows(text, rows) {
  const gap = rows.length && text && !/[\r\n]$/.test(text) ? '\n' : '';
  return text + gap + rows.map((row) => `${row}\n`).join('');
}
