/** A strict reader of XML as the pictures have it: elements, attributes, text, five entities. It stops at whatever is not well-formed. */

const NAME = /[A-Za-z][A-Za-z0-9-]*/y;
const ENTITIES = { '&amp;': '&', '&lt;': '<', '&gt;': '>', '&quot;': '"', '&#39;': "'" };
/** What XML 1.0 has no place for; and characters that turn text around, which no picture needs. */
const FORBIDDEN = /[\u0000-\u0008\u000b\u000c\u000e-\u001f\u007f-\u009f\ud800-\udfff\ufffe\uffff\u200b-\u200f\u2028-\u202e\u2060-\u206f\ufeff]/u;

class Reader {
  constructor(source) {
    this.source = source;
    this.at = 0;
  }

  stop(why) {
    throw new Error(`${why} at ${this.at}: ${this.source.slice(Math.max(0, this.at - 40), this.at + 40)}`);
  }

  take(text) {
    if (!this.source.startsWith(text, this.at)) this.stop(`${text} is missing`);
    this.at += text.length;
  }

  name() {
    NAME.lastIndex = this.at;
    const found = NAME.exec(this.source);
    if (!found) this.stop('a name is missing');
    this.at += found[0].length;
    return found[0];
  }

  /** Text up to one of the marks, with its entities put in. */
  text(marks) {
    let text = '';
    while (this.at < this.source.length && !marks.includes(this.source[this.at])) {
      if (this.source[this.at] === '<') this.stop('< in a text');
      const entity = this.source[this.at] === '&' ? Object.keys(ENTITIES).find((name) => this.source.startsWith(name, this.at)) : null;
      if (entity === undefined) this.stop('& in a text');
      text += entity === null ? this.source[this.at] : ENTITIES[entity];
      this.at += entity === null ? 1 : entity.length;
    }
    return text;
  }

  attributes() {
    const attributes = {};
    while (this.source[this.at] === ' ') {
      this.at += 1;
      const name = this.name();
      if (name in attributes) this.stop(`${name} twice`);
      this.take('="');
      attributes[name] = this.text('"');
      this.take('"');
    }
    return attributes;
  }

  element() {
    this.take('<');
    const element = { name: this.name(), attributes: this.attributes(), children: [], text: '' };
    if (this.source.startsWith('/>', this.at)) {
      this.at += 2;
      return element;
    }
    this.take('>');
    while (!this.source.startsWith('</', this.at)) {
      if (this.at >= this.source.length) this.stop('the end is missing');
      if (this.source[this.at] === '<') element.children.push(this.element());
      else element.text += this.text('<');
    }
    this.take(`</${element.name}>`);
    return element;
  }
}

/** The root of a picture. */
export function readXml(source) {
  const bad = FORBIDDEN.exec(source);
  if (bad) throw new Error(`U+${bad[0].codePointAt(0).toString(16)} at ${bad.index}`);
  const reader = new Reader(source);
  const root = reader.element();
  if (reader.at !== source.length) reader.stop('something follows the root');
  return root;
}

/** An element and all within it. */
export function all(element) {
  return [element, ...element.children.flatMap(all)];
}

/** All elements of a class. */
export function ofClass(root, name) {
  return all(root).filter((element) => (element.attributes.class ?? '').split(' ').includes(name));
}
