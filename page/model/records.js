/* Reads the records of a script, to put their texts into fields. The program alone says which row is malformed. */
/* A field and what ends it, as the program reads them. Quotation marks within a field are letters of it. */
const FIELD = /(?:"([^"]*(?:""[^"]*)*)"?)?([^,\r\n]*)(,|\r\n|[\r\n]|$)/y;

function recordAt(text, at) {
  const fields = [];
  let end = ",";
  for (FIELD.lastIndex = at; end === ",";) {
    const [, quoted, plain, ends] = FIELD.exec(text);
    fields.push(quoted === undefined ? plain : quoted.replaceAll('""', '"') + plain);
    end = ends;
  }
  return { fields, end: FIELD.lastIndex };
}

function letters(receptions) {
  if (/^[GLR]*$/.test(receptions)) return receptions.split("");
  return receptions.match(/G\d*|L|R|W[0-9A-Fa-f]{12}/g) ?? [];
}

/** @typedef {{ command: string, argument: string, free: string, receptions: string[] }} Row */
/** @type {(fields: string[]) => Row} */
const rowOf = ([command = "", argument = "", free = "", receptions = ""]) =>
  ({ command, argument, free, receptions: letters(receptions) });

/* Reads the rows of a script. Empty lines make no row. */
export function read(text) {
  /** @type {Row[]} */ const rows = [];
  for (let at = text.charCodeAt(0) === 0xFEFF ? 1 : 0, record; at < text.length; at = record.end) {
    record = recordAt(text, at);
    if (text[at] !== "\n" && text[at] !== "\r") rows.push(rowOf(record.fields));
  }
  return rows;
}

const field = (s) => /[",\n\r]/.test(s) ? `"${s.replaceAll('"', '""')}"` : s;
const writeOne = ({ command, argument, free, receptions }) =>
  `${field(command)},${field(argument)},${free},${receptions.join("")}\n`;
export const write = (rows) => rows.map(writeOne).join("");
