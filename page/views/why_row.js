// Why the program refuses a row of a parameter file, in words.

const is_plain = (text) => /^(0|[1-9][0-9]{0,9})$/.test(text) && Number(text) <= 4294967295;

// What is wrong with the span of a row, or nothing.
function wrong_span(first, last, step) {
  for (const [name, text] of [['first', first], ['last', last], ['step', step]]) {
    if (!is_plain(text ?? '')) return `${name} is a number, digits alone`;
  }
  if (Number(first) > Number(last)) return 'first is above last';
  return step === '0' ? 'step is 1 or more' : '';
}

// A guess why a row is refused; that it is refused is what the program says.
export const WHY_ROW = {
  schedule(cells) {
    if (cells[0] === 'robust') {
      if (cells.length !== 5) return 'it has five parts: robust,first,last,step,value';
      return wrong_span(cells[1], cells[2], cells[3]) || (/^[0-7]$/.test(cells[4]) ? '' : 'value is 0 to 7');
    }
    if (cells.length !== 4) return 'it has four parts, first,last,step,flags, or begins with robust and has five';
    return wrong_span(...cells) || 'flags are letters of p, f, r, none twice';
  },
  script(cells) {
    if (cells[0] !== 'drop' && cells[0] !== 'repeat') return 'it begins with drop or repeat';
    const parts = cells[0] === 'drop' ? 4 : 5;
    if (cells.length !== parts) return parts === 4 ? 'it has four parts: drop,first,last,step' : 'it has five parts: repeat,first,last,step,extra';
    return wrong_span(cells[1], cells[2], cells[3]) || 'extra is 1 to 8';
  },
  fields(cells) {
    if (cells[0] === 'limit' && cells.length !== 4) return 'it has four parts: limit,name,low,high';
    if (cells[0] === 'limit') return 'the name is of a field above it that has no limit yet, and low is at most high';
    if (cells[0] !== 'field') return 'it begins with field or limit';
    if (cells.length !== 5) return 'it has five parts: field,place,width,kind,name';
    if (cells[3] !== 'u' && cells[3] !== 's') return 'kind is u or s';
    return 'place and width lie within the bits of a packet (width 1 to 64), and the name is new, of letters, digits and _';
  },
};
