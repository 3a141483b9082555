// Where the linter's lines point in a text.

// The range of the value at a JSON Pointer, as [start, end], with the member's name where there is one; null where there is none.
// The text may be no JSON behind that place.
export function rangeOf(text, pointer) {
  const steps = pointer.split("/").slice(1).map((it) => it.replaceAll("~1", "/").replaceAll("~0", "~"));
  const token = /\s*("(?:[^"\\]|\\.)*"|[{}[\],:]|[^\s{}[\],:"]+)/gsy;
  let found = null;

  // The next token, as [text, start, end].
  const next = () => {
    const it = token.exec(text);
    return it ? [it[1], token.lastIndex - it[1].length, token.lastIndex] : ["", text.length, text.length];
  };
  const named = (word) => {
    try {
      return JSON.parse(word);
    } catch {
      return undefined;
    }
  };

  // Reads the value that begins with a token, `depth` steps of which lead here (-1: it is not on the way). Its end.
  const read = ([word, start, end], depth, from) => {
    const wanted = depth >= 0 && depth < steps.length ? steps[depth] : null;
    if (word !== "{" && word !== "[") {
      if (depth === steps.length) found ??= [from ?? start, end];
      return end;
    }
    const close = word === "{" ? "}" : "]";
    let last = end;
    for (let index = 0, it = next(); it[0] !== "" && it[0] !== close; it = next()) {
      last = it[2];
      if (it[0] === ",") continue;
      let name = `${index++}`, begin = null;
      if (word === "{") {
        [name, begin] = [named(it[0]), it[1]];
        if (next()[0] !== ":") return last;
        it = next();
      }
      last = read(it, name === wanted ? depth + 1 : -1, begin);
      if (found) return last;
    }
    end = token.lastIndex || text.length;
    if (depth === steps.length) found ??= [from ?? start, end];
    return end;
  };
  try {
    read(next(), 0, null);
  } catch (error) {
    if (!(error instanceof RangeError)) throw error; // nested too deeply to be read
  }
  return found;
}

// The range of a line and a column, both from 1; columns count bytes.
export function rangeAt(text, line, column) {
  const lines = text.split("\n");
  const start = lines.slice(0, line - 1).reduce((sum, it) => sum + it.length + 1, 0);
  const bytes = new TextEncoder().encode(lines[line - 1] ?? "");
  const before = new TextDecoder().decode(bytes.slice(0, Math.max(column - 1, 0))).length;
  const at = Math.min(start + before, text.length);
  return [at, Math.min(at + 1, text.length)];
}

// The lines of a report before its verdict, each with the range in the text that it is about: the innermost value on the way.
export function remarksIn(report, text) {
  const lines = report.split("\n").filter((it) => /^(fault|warning|not plain): /.test(it));
  return lines.map((line) => {
    const fault = line.startsWith("fault: ");
    const place = /^(?:fault|warning|not plain): (\/[^\s:]*)/.exec(line);
    const position = /at line (\d+) column (\d+)$/.exec(line);
    let range = position ? rangeAt(text, +position[1], +position[2]) : null;
    for (let pointer = place?.[1]; pointer && !range; pointer = pointer.slice(0, pointer.lastIndexOf("/"))) range = rangeOf(text, pointer);
    return { line, range, fault };
  });
}
